"""The way through a function: which blocks are reached, where a jump ends, and the values that depend on the way (phis)."""


class Ways:
    """What a jump to a label means, over the blocks of a function that are reached, in the module's order."""

    def __init__(self, blocks):
        self.blocks, self.by_label = blocks, {block.label: block for block in blocks}
        self.phis = {block.label: [line for line in block.lines if line.kind == "phi"] for block in self.blocks}
        self.goes_on = {block.label: block.lines[0]["label"] for block in self.blocks if self.only_goes_on(block)}

    def only_goes_on(self, block):
        """A block of one jump. It is left out, unless values depend on coming from it, or it is a loop of its own."""
        to = block.lines[0]["label"] if len(block.lines) == 1 and block.lines[0].kind == "jump" else None
        return to is not None and to != block.label and not self.phis[to]

    def end(self, label):
        """Where a jump to a label ends, past the blocks that are left out."""
        for _ in self.goes_on:
            label = self.goes_on.get(label, label)
        return label

    def shortly(self, label):
        """What takes the place of a jump to a block that only ends: "" for any other block."""
        kinds = [line.kind for line in self.by_label[label].lines]
        return {("never",): "never();", ("trap", "never"): "trap();", ("give_nothing",): "return;"}.get(tuple(kinds), "")

    def kept(self):
        return [block for block in self.blocks if self.end(block.label) == block.label]

    def arriving(self, come_from, label):
        """The phis of a block with the value of each for whoever comes from that block."""
        for line in self.phis[label]:
            for value, label_of_row in line.rows:
                if label_of_row == come_from:
                    yield line, value
                    break


def reached(function):
    """The blocks of a function that are reached from the first one."""
    by_label = {block.label: block for block in function.blocks}
    found, left = set(), [function.blocks[0].label]
    while left:
        label = left.pop()
        if label not in found:
            found.add(label)
            left += by_label[label].lines[-1].goes_to()
    return [block for block in function.blocks if block.label in found]
