"""What branches say of the numbers of a function: which comparisons hold in which of its blocks."""
from blocks import reached
from text import constant

OPPOSITE = {"eq": "ne", "ne": "eq", "ult": "uge", "uge": "ult", "ule": "ugt", "ugt": "ule"}
# Sums and the like that are at most what they are made of.
LESS = {"and": ("left", "right"), "lshr": ("left",), "udiv": ("left",), "urem": ("left",), "umin": ("left", "right"), "usub.sat": ("left",)}


class Conditions:
    """The blocks of a function that are reached. `facts` has for each one the comparisons that hold from its beginning on, as (order, left,
    right): those of the branches that every way to it takes."""

    def __init__(self, function):
        self.blocks = reached(function)
        self.by_label = {block.label: block for block in self.blocks}
        self.makers = {line["made"]: (block, line) for block in self.blocks for line in block.lines if "made" in line.words}
        self.from_labels = {block.label: [] for block in self.blocks}
        for block in self.blocks:
            for label in block.lines[-1].goes_to():
                self.from_labels[label].append(block.label)
        self.above = self.all_above()
        self.facts = {}
        for block in sorted(self.blocks, key=lambda it: len(self.above[it.label])):
            found = set()
            for label in self.above[block.label] - {block.label}:
                found |= self.facts[label]
            if len(self.from_labels[block.label]) == 1:
                found |= self.of_way(self.from_labels[block.label][0], block.label)
            self.facts[block.label] = found

    def all_above(self):
        """For each block the labels of those that every way to it goes through, with its own."""
        first, every = self.blocks[0].label, {block.label for block in self.blocks}
        above = {label: every for label in every}
        above[first] = {first}
        has_changed = True
        while has_changed:
            has_changed = False
            for block in self.blocks[1:]:
                now = {block.label} | set.intersection(*(above[it] for it in self.from_labels[block.label]))
                has_changed |= now != above[block.label]
                above[block.label] = now
        return above

    def of_way(self, label, to):
        """The comparison that holds on the way from a block to the next one, if its branch says one."""
        end = self.by_label[label].lines[-1]
        if end.kind != "branch" or end["yes"] == end["no"] or end["value"] not in self.makers:
            return set()
        line = self.makers[end["value"]][1]
        if line.kind != "compare" or line["order"] not in OPPOSITE:
            return set()
        order = line["order"] if end["yes"] == to else OPPOSITE[line["order"]]
        return {(order, line["left"], line["right"])}

    def on_way(self, label, to):
        """All that holds on this way."""
        return self.facts[label] | self.of_way(label, to)

    def is_at_most(self, value, other, facts):
        """Whether a value is at most another one, where these facts hold. A value may be a number in digits."""
        for order, left, right in facts:
            if (left, right) == (value, other) and order in ("ult", "ule", "eq"):
                return True
            if (left, right) == (other, value) and order in ("ugt", "uge", "eq"):
                return True
            if value.isdigit() and left == other and self.is_from(order, right, int(value)):
                return True
        made = self.makers.get(value, (None, None))[1]
        if value in ("0", other) or made is None:
            return value in ("0", other)
        if made.kind == "choose":
            return all(self.is_at_most(made[it], other, facts) for it in ("left", "right"))
        of = LESS.get(made.words.get("sum") or made.words.get("least"), ())
        return any(made[it] == other for it in of)

    def is_from(self, order, right, number):
        """Whether what is in this order to `right` is at least a number."""
        known = int(right) if right.isdigit() else None
        return known is not None and (order in ("uge", "eq") and known >= number or order == "ugt" and known + 1 >= number
                                      or order == "ne" and known == 0 and number == 1)

    def counts_to(self, block, phi, value, label):
        """The number that a phi counts to, by ones; None if it does not. Its block ends when they are the same, and only otherwise comes to
        `label`, whose row is one more; each other row is at most that number."""
        end = block.lines[-1]
        compare = self.makers.get(end.words.get("value"), (None, None))[1] if end.kind == "branch" else None
        if compare is None or compare.kind != "compare" or compare["order"] not in ("eq", "ne") or end["yes"] == end["no"]:
            return None
        if phi["made"] not in (compare["left"], compare["right"]):
            return None
        most = compare["right"] if compare["left"] == phi["made"] else compare["left"]
        goes_on = end["no"] if compare["order"] == "eq" else end["yes"]
        steps = [(it, of) for it, of in phi.rows if self.is_step(it, phi["made"])]
        is_fixed = most[0] != "%" or most not in self.makers or self.makers[most][0].label in self.above[block.label] - {block.label}
        if (value, label) not in steps or not is_fixed or self.from_labels[goes_on] != [block.label]:
            return None
        others = [(it, of) for it, of in phi.rows if (it, of) not in steps]
        is_right = (all(goes_on in self.above[of] for _, of in steps)
                    and all(self.is_at_most(it, most, self.on_way(of, block.label)) for it, of in others))
        return most if is_right else None

    def is_step(self, value, name):
        made = self.makers.get(value, (None, None))[1]
        return made is not None and made.kind == "sum" and made["sum"] == "add" and made["left"] == name and made["right"] == "1"
