"""Where each pointer of a module may lead, over all its functions: to arrays of its functions, to tables, to memory of C, or elsewhere.

A parameter leads to what any call hands over, so an array is one place here, whoever looks at it. A pointer that becomes a number, is
stored, given as a result or part of a pair is lost: what is read or written by a number may then be that array."""
from pointers import moves
from text import bytes_of

# What C hands over, where no array of the module is; and what a number leads to, where each one that is lost may be.
OF_C, BY_NUMBER = "memory of C", "what a number leads to"
# A pointer that may lead to more places of an array than this is taken to lead to any of them.
MANY = 8
KEEPS_NONE = ("place", "row", "phi", "choose", "same", "load", "store", "move", "copy", "fill", "compare_places", "alive", "dead", "call",
              "call_only")


class Places:
    """`of(function, value)`: pairs of an object and by how many bytes, or None if that is not known. An object is (function, array), ("",
    table), OF_C or BY_NUMBER. `sizes` has the bytes of each array, and `lost` those that a number may lead to."""

    def __init__(self, module, blocks_of):
        self.functions = {it.name: it for it in module.functions}
        self.lines = {it.name: [line for block in blocks_of(it.name) for line in block.lines] for it in module.functions}
        self.sizes, self.found, self.lost = {}, {it.name: {} for it in module.functions}, set()
        for function in module.functions:
            if function.is_export:
                self.found[function.name] = {name: {(OF_C, None)} for type, name in function.parameters if type == "ptr"}
            for line in self.lines[function.name]:
                if line.kind in ("array", "local"):
                    it = (function.name, line["made"])
                    self.sizes[it] = max(int(line["size"]) if line.kind == "array" else bytes_of(line["type"]), 1)
                    self.found[function.name][line["made"]] = {(it, 0)}
        self.has_changed = True
        while self.has_changed:
            self.has_changed = False
            for name, lines in self.lines.items():
                for line in lines:
                    self.follow(name, line)
        for name, lines in self.lines.items():
            for line in lines:
                self.lose(name, line)

    def of(self, function, value):
        if value[0] == "%":
            return self.found[function].get(value, set())
        if value[0] == "@":
            return {(("", value), 0)}
        return set() if value in ("null", "poison") else {(BY_NUMBER, None)}

    def follow(self, function, line):
        """What a line makes, and what a call hands over."""
        if line.kind in ("call", "call_only"):
            called = self.functions.get(line["function"].strip('@"'))
            for (type, value), (_, name) in zip(line.given, called.parameters if called else []):
                if type == "ptr":
                    self.lead(called.name, name, self.of(function, value))
        if line.kind == "row":
            self.lead(function, line["made"], self.moved(function, line, bytes_of(line["type"])))
        elif line.kind == "place":
            self.lead(function, line["made"], self.moved(function, line, 1))
        elif moves(line) or line.kind == "same" and line["type"] == "ptr":
            for value in line.values:
                if value != line.words.get("choice"):
                    self.lead(function, line["made"], self.of(function, value))
        elif gives_pointer(line):
            self.lead(function, line["made"], {(BY_NUMBER, None)})

    def moved(self, function, line, size):
        by = int(line["by"]) * size if line["by"][0] != "%" else None
        return {(it, None if at is None or by is None else at + by) for it, at in self.of(function, line["base"])}

    def lead(self, function, name, to):
        before = self.found[function].get(name, set())
        now = few(before | to)
        if now != before:
            self.found[function][name] = now
            self.has_changed = True

    def lose(self, function, line):
        """The arrays that a line makes a number of, or keeps a pointer to."""
        values = [line["value"]] if line.kind == "store" else [] if line.kind in KEEPS_NONE else line.values
        if line.kind in ("call", "call_only") and line["function"].strip('@"') not in self.functions:
            values = line.values
        self.lost |= {it for value in values if value[0] == "%" for it, _ in self.of(function, value) if it in self.sizes}


def gives_pointer(line):
    """Whether a line makes a pointer that is not followed."""
    return line.kind in ("to_place", "half") or line.kind == "call" and line["type"] == "ptr"


def few(places):
    """The same places, or any place of an object that has many."""
    by_object = {}
    for it, at in places:
        by_object.setdefault(it, set()).add(at)
    return {(it, at) for it, those in by_object.items() for at in ({None} if None in those or len(those) > MANY else those)}
