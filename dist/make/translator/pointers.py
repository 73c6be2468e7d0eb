"""Where the pointers of a function lead: to its own arrays, to the places that it is handed, or elsewhere."""
from text import bytes_of

ELSEWHERE = "elsewhere"
# What reads or writes through a pointer, moves or compares it, and keeps no copy of it. A store keeps what it stores, and a call what the
# function that is called keeps.
KEEPS_NONE = ("place", "phi", "choose", "load", "move", "copy", "fill", "compare_places", "alive", "dead")


def moves(line):
    """Whether a line makes a pointer of pointers that are followed."""
    return line.kind == "place" or line.kind in ("phi", "choose") and line["type"] == "ptr"


class Pointers:
    """The arrays of a function with their sizes, its parameters that are pointers, and where each pointer may lead: pairs of an object,
    which is an array or a parameter by its name, and by how many bytes, or None if that is not known."""

    def __init__(self, function, lines):
        self.sizes = {line["made"]: int(line["size"]) if line.kind == "array" else bytes_of(line["type"])
                      for line in lines if line.kind in ("array", "local")}
        self.parameters = [name for type, name in function.parameters if type == "ptr"]
        self.leads = {name: {(name, 0)} for name in [*self.sizes, *self.parameters]}
        self.leads.update({line["made"]: set() for line in lines if moves(line)})
        has_changed = True
        while has_changed:
            has_changed = False
            for line in lines:
                if moves(line):
                    before = self.leads[line["made"]]
                    self.leads[line["made"]] = as_one(before | self.moved(line))
                    has_changed |= self.leads[line["made"]] != before

    def of(self, value):
        """Where a pointer may lead. What is not followed leads elsewhere."""
        return self.leads.get(value, {(ELSEWHERE, None)})

    def moved(self, line):
        """Where the pointer that a line makes may lead."""
        if line.kind == "phi":
            return set().union(*(self.of(value) for value, _ in line.rows))
        if line.kind == "choose":
            return self.of(line["left"]) | self.of(line["right"])
        more = None if line["by"][0] == "%" else int(line["by"])
        return {(it, None if by is None or more is None or by + more < 0 else by + more) for it, by in self.of(line["base"])}

    def kept(self, lines, kept_by_call):
        """The objects of which a copy of a pointer is kept, in memory, in a number, in a pair or as a result."""
        values = set()
        for line in lines:
            if line.kind == "store":
                values.add(line["value"])
            elif line.kind in ("call", "call_only"):
                values |= kept_by_call(line)
            elif line.kind not in KEEPS_NONE:
                values |= {*line.names()}
        return {it for value in values if value in self.leads for it, _ in self.of(value)}


def as_one(pairs):
    """For each object one pair: one with two distances is at an unknown one."""
    by_object = {}
    for it, by in pairs:
        by_object.setdefault(it, set()).add(by)
    return {(it, by.pop() if len(by) == 1 else None) for it, by in by_object.items()}
