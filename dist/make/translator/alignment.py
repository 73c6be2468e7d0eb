"""What places are multiples of, as the module alone shows it: for each value a power of two, at most MOST.

All values begin with MOST. Each line lowers its value to what it makes of the ones that it reads, and each call lowers the parameters to
what it hands over, until nothing changes. Whatever is read from memory, given by a call or part of a pair is a multiple of 1. What a
struct of the header is a multiple of, the C asserts; a caller of C has to keep it, as C itself demands."""
from text import bytes_of, constant

MOST = 16


def power(number):
    """The largest power of two, up to MOST, that a number is a multiple of."""
    return min(number & -number, MOST) if number else MOST


class Alignments:
    """For each function what its values are multiples of. Numbers count too, since places are moved by them."""

    def __init__(self, module, header):
        self.tables = {it.name: it.align for it in module.tables}
        self.functions = {it.name: it for it in module.functions}
        self.found = {it.name: {} for it in module.functions}
        for function in module.functions:
            if function.is_export:
                self.begin_export(function, header)
        self.has_changed = True
        while self.has_changed:
            self.has_changed = False
            for function in module.functions:
                for block in function.blocks:
                    for line in block.lines:
                        self.lower_by(function.name, line)

    def begin_export(self, function, header):
        """What C hands over: a struct is where one may be, and anything else anywhere."""
        for (_, name), written in zip(function.parameters, header.exports[function.name].parameters):
            self.found[function.name][name] = header.align_of(written)

    def lower_by(self, function, line):
        """Makes what is known agree with a line."""
        if "made" in line.words:
            self.lower(function, line["made"], self.made_by(function, line))
        if line.kind in ("call", "call_only"):
            called = self.functions.get(line["function"].strip('@"'))
            for (type, value), (_, name) in zip(line.given, called.parameters if called else []):
                self.lower(called.name, name, self.of(function, type, value))

    def lower(self, function, name, to):
        if to < self.found[function].get(name, MOST):
            self.found[function][name] = to
            self.has_changed = True

    def of(self, function, type, value):
        """What a value is a multiple of. NULL is 0, and poison may be taken for any number."""
        if value[0] == "%":
            return self.found[function].get(value, MOST)
        if value[0] == "@":
            return min(self.tables.get(value, 1), MOST)
        if value in ("null", "poison"):
            return MOST
        return power(constant(type, value)) if type[0] == "i" and constant(type, value) is not None else 1

    def made_by(self, function, line):
        """What the value that a line makes is a multiple of."""
        kind = line.kind
        if kind in ("local", "array"):
            return min(int(line["align"]), MOST)
        if kind == "place":
            return min(self.of(function, "ptr", line["base"]), self.of(function, "i64", line["by"]))
        if kind == "row":
            by = self.of(function, "i64", line["by"]) * power(bytes_of(line["type"]))
            return min(self.of(function, "ptr", line["base"]), by)
        if kind == "phi":
            return min(self.of(function, line["type"], value) for value, _ in line.rows)
        if kind == "sum":
            return self.made_by_sum(function, line)
        if kind == "choose":
            return min(self.of(function, line["type"], line[it]) for it in ("left", "right"))
        if kind in ("widen", "narrow"):
            return self.of(function, line["type"], line["value"])
        if kind in ("address", "to_number", "to_place"):
            return self.of(function, "i64" if kind == "to_place" else "ptr", line["value"])
        return 1

    def made_by_sum(self, function, line):
        type, sum = line["type"], line["sum"]
        left, right = (self.of(function, type, line[it]) for it in ("left", "right"))
        if sum in ("add", "sub", "or", "xor"):
            return min(left, right)
        if sum == "and":
            return max(left, right)
        if sum == "mul":
            return min(left * right, MOST)
        if sum == "shl":
            return min(left << (constant(type, line["right"]) or 0), MOST)
        return 1
