"""What a branch says of the first byte of an object, which tells the cases of a type apart: in zeros.py, what a byte may hold in one case
is not followed where the branch is for another one."""
from text import bits, constant


class Tags:
    """One way through a block, line by line. `read` has for each number the object whose first byte is its low byte, as long as nothing
    may have written that byte; `asked` for each condition its number with the values for which it holds: a number, a mask and whether the
    masked number is that; and `beside` for each other number that was loaded meanwhile the object that it was loaded from."""

    def __init__(self, pointers):
        self.pointers, self.read, self.asked, self.beside = pointers, {}, {}, {}

    def follow(self, line):
        if line.kind == "load" and line["type"] != "ptr":
            places = self.pointers.of(line["place"])
            if len(places) == 1:
                [(it, by)] = places
                self.beside[line["made"]] = it
                if by == 0:
                    self.read[line["made"]] = it
        elif line.kind == "narrow" and line["value"] in self.read:
            self.read[line["made"]] = self.read[line["value"]]
            if line["to"] == "i1":
                self.asked[line["made"]] = (line["value"], 1, 1, True)
        elif line.kind == "compare" and line["left"] in self.read and line["order"] in ("eq", "ne"):
            number = constant(line["type"], line["right"]) if line["right"][0] != "%" else None
            # (that a wider number is not this one says nothing of its low byte)
            if number is not None and number < 256 and line["type"] == "i8":
                self.asked[line["made"]] = (line["left"], number, 255, line["order"] == "eq")
        else:
            self.write(line)

    def write(self, line):
        """A line may write the first byte of these objects: what was read of them says nothing more."""
        places = set()
        for word in ("place",) if line.kind == "store" else ("to",) if line.kind in ("move", "copy", "fill") else ():
            places = {it for it, by in self.pointers.of(line[word]) if not by}
        if line.kind in ("call", "call_only"):
            places = {it for _, value in line.given for it, _ in self.pointers.of(value)}
        self.read = {name: it for name, it in self.read.items() if it not in places}
        self.beside = {name: it for name, it in self.beside.items() if it not in places}

    def left(self, state, line, label):
        """Of a state at the end of a block, what may be if the last line goes to this label."""
        cases = list(self.cases(line, label))
        if not cases:
            return state
        asked = {cases[0][0], *(name for name, it in self.beside.items() if it == cases[0][0])}
        return {key: bytes for key, bytes in state.items() if key[3] is None or key[0] not in asked or any(
            ((key[3] & mask) == number) == holds for _, number, mask, holds in cases)}

    def cases(self, line, label):
        """What may be of an object's first byte if a line goes to a label: (object, number, mask, whether it is that). None say nothing."""
        if line.kind == "branch" and line["value"] in self.asked and line["yes"] != line["no"]:
            name, number, mask, holds = self.asked[line["value"]]
            if name in self.read:
                yield self.read[name], number, mask, holds == (line["yes"] == label)
        elif line.kind == "switch" and line["type"] == "i8" and line["value"] in self.read and line["otherwise"] != label:
            for number, to in line.cases:
                if to == label:
                    yield self.read[line["value"]], int(number) % 256, 255, True


def number_of(type, value):
    """The first byte of a value in memory, if it is a number; else None."""
    if value[0] == "%" or value == "poison" or type == "ptr" or bits(type) < 8:
        return None
    number = constant(type, value)
    return None if number is None else number & 255
