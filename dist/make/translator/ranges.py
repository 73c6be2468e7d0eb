"""The most that each number is, as the module alone shows it, where a size of C has 32 bits.

All values begin with 0. Each line raises its value to the most that it makes of the ones that it reads, and each call raises the
parameters to what it hands over, until nothing changes. A value that rises often goes up to the next power of two, so that this ends.
What is read from an array is at most what cells.py finds that it holds. What is read from elsewhere, or given by C as a uint64_t, may be
any number; a `size_t` of C and a pointer are below 2 to the 32."""
from cells import WRITES, Cells
from conditions import Conditions
from text import bits, constant, halves

SIZE = (1 << 32) - 1
OFTEN = 6


def most_of(type):
    return (1 << bits(type)) - 1


def all_ones(number):
    """The next number that has only ones, from this one on."""
    return (1 << number.bit_length()) - 1


class Ranges:
    """For each function the most of its values by their names, and of its result by the name RESULT. Halves of pairs are (name, 0 or 1)."""
    RESULT = ""

    def __init__(self, module, header):
        self.functions = {it.name: it for it in module.functions}
        self.found = {it.name: {} for it in module.functions}
        self.conditions = {it.name: Conditions(it) for it in module.functions}
        self.cells = Cells(module, lambda name: self.conditions[name].blocks)
        self.rises = {}
        for function in module.functions:
            if function.is_export:
                self.begin_export(function, header.exports[function.name].parameters)
        self.has_changed = True
        while self.has_changed:
            self.has_changed = False
            for function in module.functions:
                for block in self.conditions[function.name].blocks:
                    for line in block.lines:
                        self.raise_by(function.name, block, line)
            self.has_changed |= self.cells.has_changed
            self.cells.has_changed = False

    def begin_export(self, function, parameters):
        """What C hands over."""
        for (type, name), written in zip(function.parameters, parameters):
            if type != "ptr":
                self.raise_to(function.name, name, SIZE if written.startswith("size_t ") else most_of(type))

    def raise_to(self, function, name, to):
        if to > self.found[function].get(name, 0):
            count = self.rises[function, name] = self.rises.get((function, name), 0) + 1
            self.found[function][name] = all_ones(to) if count > OFTEN else to
            self.has_changed = True

    def raise_by(self, function, block, line):
        """Makes what is known agree with a line."""
        facts = self.conditions[function].facts[block.label]
        if line.kind in ("call", "call_only"):
            called = self.functions.get(line["function"].strip('@"'))
            for (type, value), (_, name) in zip(line.given, called.parameters if called else []):
                self.raise_value(called.name, name, function, type, value, facts)
        if line.kind in WRITES:
            type = line.words.get("type", "i8")
            self.cells.write(function, line, self.of(function, type, line["value"], facts) if "value" in line.words else 0)
        if line.kind == "give":
            self.raise_value(function, self.RESULT, function, line["type"], line["value"], facts)
        elif line.kind == "call" and called:
            for half in self.parts(line["type"]):
                self.raise_to(function, named(line["made"], half), self.found[called.name].get(named(self.RESULT, half), 0))
        elif line.kind == "put_half":
            for half, type in enumerate(halves(line["type"])):
                its = (line["of"], line["put"]) if half == int(line["half"]) else None
                to = self.of(function, *its, facts) if its else self.of_half(function, line["type"], line["value"], half)
                self.raise_to(function, named(line["made"], half), to)
        elif line.kind == "phi" and line["type"][0] == "{":
            for value, _ in line.rows:
                self.raise_value(function, line["made"], function, line["type"], value, facts)
        elif "made" in line.words:
            self.raise_made(function, block, line, facts)

    def raise_made(self, function, block, line, facts):
        if line.kind in ("load_pair", "product") or line.kind == "same" and line["type"][0] == "{":
            type = "{ i64, i1 }" if line.kind == "product" else f"{{ {line['first']}, {line['second']} }}" if line.kind == "load_pair" else line["type"]
            for half, its in enumerate(halves(type)):
                self.raise_to(function, named(line["made"], half), most_of(its))
        else:
            self.raise_to(function, line["made"], self.made_by(function, block, line, facts))

    def parts(self, type):
        """None for a plain value, and the numbers of its halves for a pair."""
        return [0, 1] if type[0] == "{" else [None]

    def raise_value(self, to_function, name, function, type, value, facts):
        for half in self.parts(type):
            to = self.of(function, type, value, facts) if half is None else self.of_half(function, type, value, half)
            self.raise_to(to_function, named(name, half), to)

    def of_half(self, function, pair, value, half):
        """The most of one half of a pair."""
        type = halves(pair)[half]
        if value[0] == "%":
            return self.found[function].get(named(value, half), 0)
        if value in ("poison", "zeroinitializer"):
            return 0
        return self.of(function, *value[2:-2].split(", ")[half].split(" ", 1))

    def of(self, function, type, value, facts=()):
        """The most of a value, where these conditions hold."""
        if type == "ptr":
            return SIZE
        if value[0] != "%":
            known = constant(type, value)
            return SIZE if known is None else known
        most = self.found[function].get(value, 0)
        for order, left, right in facts:
            if left == value and order in ("ult", "ule", "eq"):
                most = min(most, max(self.of(function, type, right) - (order == "ult"), 0))
            elif right == value and order in ("ugt", "uge", "eq"):
                most = min(most, max(self.of(function, type, left) - (order == "ugt"), 0))
        return most

    def made_by(self, function, block, line, facts):
        """The most that a line makes."""
        kind = line.kind
        if kind == "sum":
            return min(self.made_by_sum(function, line, facts), most_of(line["type"]))
        if kind == "least":
            return min(self.made_by_least(function, line, facts), most_of(line["type"]))
        if kind == "phi":
            return max(self.of_row(function, block, line, value, label) for value, label in line.rows)
        if kind == "choose":
            return max(self.of(function, line["type"], line[it], facts) for it in ("left", "right"))
        if kind in ("widen", "narrow"):
            return min(self.of(function, line["type"], line["value"], facts), most_of(line["to"]))
        if kind == "same":
            return self.of(function, line["type"], line["value"], facts)
        if kind == "half":
            return self.of_half(function, line["type"], line["value"], int(line["half"]))
        if kind in ("address", "to_number"):
            return SIZE
        if kind in ("compare", "compare_places"):
            return 1
        return self.made_by_load(function, line) if kind == "load" else 0

    def made_by_load(self, function, line):
        maker = self.conditions[function].makers.get(line["place"], (None, None))[1]
        if maker is not None and maker.kind == "row" and maker["type"] == line["type"] and maker["base"] in self.cells.rows:
            return self.cells.rows[maker["base"]]
        most = self.cells.most_read(function, line["place"], line["type"])
        return most_of(line["type"]) if most is None else min(most, most_of(line["type"]))

    def of_row(self, function, block, line, value, label):
        """The most that a phi is for whoever comes from a block. One that counts up to a number is at most that."""
        conditions = self.conditions[function]
        if conditions.counts_to(block, line, value, label):
            return self.of(function, line["type"], conditions.counts_to(block, line, value, label))
        return self.of(function, line["type"], value, conditions.on_way(label, block.label))

    def made_by_sum(self, function, line, facts):
        type, sum, conditions = line["type"], line["sum"], self.conditions[function]
        left, right = (self.of(function, type, line[it], facts) for it in ("left", "right"))
        known = constant(type, line["right"])
        if sum == "add" and known is not None and known >> (bits(type) - 1):
            less = str((1 << bits(type)) - known)
            return left if conditions.is_at_most(less, line["left"], facts) else most_of(type)
        if sum == "add":
            return left + right if left + right <= most_of(type) else most_of(type)
        if sum == "sub":
            is_less = " nuw" in line.written or conditions.is_at_most(line["right"], line["left"], facts)
            return left if is_less else most_of(type)
        if sum == "mul":
            return left * right if left * right <= most_of(type) else most_of(type)
        if sum in ("or", "xor"):
            return all_ones(max(left, right))
        if sum == "and":
            return min(left, right)
        if sum == "shl":
            return left << known if known is not None and left << known <= most_of(type) else most_of(type)
        if sum == "urem":
            return min(left, max(right - 1, 0))
        if sum == "lshr" and known is not None:
            return left >> known
        return left // max(known or 1, 1) if sum == "udiv" else left

    def made_by_least(self, function, line, facts):
        left, right = (self.of(function, line["type"], line[it], facts) for it in ("left", "right"))
        return {"umin": min(left, right), "umax": max(left, right), "usub.sat": left, "uadd.sat": left + right}[line["least"]]


def named(name, half):
    return name if half is None else (name, half)
