"""The blocks of a function in C, one in another: `if`, `switch` and `for` where the ways allow it, and a goto for any other way."""
from typing import NamedTuple, Optional

from refusals import refuse
from shape import Shape
from statements import Statements


class Label(NamedTuple):
    """A place in the text that a goto may name."""
    label: str


class Around(NamedTuple):
    """What stands around a block: the label that comes next in the text; those that `break` and `continue` lead to; and the first block of the
    loop, or the block of the switch, that a `break` ends."""
    next: Optional[str] = None
    breaks: Optional[str] = None
    continues: Optional[str] = None
    ended: Optional[str] = None


def deeper(lines):
    return [(depth + 1, text) for depth, text in lines]


class Flow:
    """Writes the blocks of a body. Lines are pairs of a depth and a text, or a Label. Each function gives lines, and whether a run comes to
    their end."""

    def __init__(self, body):
        self.body, self.ways = body, body.ways
        kept = [it for it in body.ways.kept() if it.label == body.ways.blocks[0].label or not body.ways.shortly(it.label)]
        self.shape = Shape(body.ways, kept)
        self.placed = {it for it in self.shape.order if it != self.shape.first and self.shape.is_placed(it)}
        # The blocks of what a `break` ends; and for each line that ends a loop the condition on which it goes on.
        self.ended, self.opposite = set(), {}

    def write(self):
        return self.tree(self.shape.first, Around())[0]

    def tree(self, label, around):
        """A block, and all that stands in it or behind it."""
        if label not in self.shape.loops:
            return self.row(label, self.shape.after[label], around)
        behind = self.shape.behind[label]
        breaks = behind[0] if behind else around.next
        inside, _ = self.row(label, self.shape.after[label], Around(label, breaks, label, label))
        lines = [(0, "for (;;) {"), *deeper(inside), (0, "}")]
        if inside and inside[0][1] in self.opposite:
            goes_on = self.opposite[inside[0][1]]
            lines = [(0, f"while ({goes_on}) {{"), *deeper(inside[1:]), (0, "}")]
            if any(line.number in self.body.program.sizes.counts for line in self.ways.by_label[label].lines):
                # A turn for each byte: the condition stands behind it, which takes a jump less.
                loop = [(0, "do {"), *deeper(inside[1:]), (0, f"}} while ({goes_on});")]
                lines = [(0, f"if ({goes_on}) {{"), *deeper(loop), (0, "}")]
        lines = [(0, Label(label)), *lines]
        return self.following(lines, label in self.ended, behind, around)

    def row(self, label, after, around):
        """A block with what stands after its branch."""
        lines, falls = self.block(label, around._replace(next=after[0] if after else around.next))
        return self.following(lines, falls, after, around)

    def following(self, lines, falls, labels, around):
        for k, label in enumerate(labels):
            its, falls = self.tree(label, around._replace(next=labels[k + 1] if k + 1 < len(labels) else around.next))
            lines = lines + [(0, Label(label))] * (label not in self.shape.loops) + its
        return lines, falls

    def block(self, label, around):
        """The lines of one block, and where it leads."""
        statements = Statements(self.body, self.ways.by_label[label])
        lines = [(0, it) for it in statements.write()]
        ends, falls = statements.end(self, around)
        if statements.waiting:
            refuse(statements.block.lines[-1].number, f"values that nobody took: {', '.join(statements.waiting)}")
        return lines + ends, falls

    def way(self, statements, label, around):
        """The way from a block to a label: what it sets, and then that block, or what leads there."""
        to = self.ways.end(label)
        lines = [(0, it) for it in statements.set_phis(to)]
        if self.ways.shortly(to):
            return lines + [(0, self.ways.shortly(to))], False
        if to in self.placed and self.shape.order[to] > self.shape.order[statements.block.label]:
            its, falls = self.tree(to, around)
            return lines + its, falls
        if to == around.next:
            return lines, True
        if to == around.breaks:
            self.ended.add(around.ended)
            return lines + [(0, "break;")], False
        if to == around.continues:
            return lines + [(0, "continue;")], False
        self.body.wanted.add(to)
        return lines + [(0, f"goto {self.body.name_of_label(to)};")], False
