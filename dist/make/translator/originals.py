#!/usr/bin/env python3
"""originals.py SMALL.ll > FEWER.ll: the module with calls that are handed the original in place of a local copy of it.

A local array is a copy of what a parameter leads to if its place is known everywhere, its function alone writes it, and each of its bytes
that anybody reads is what the parameter has at the same distance. What that leads to are arrays of the module, none of which is written
until the function returns. For one call an array is a copy too if the line before copies so many bytes to it, the call reads only these
(buffers.py), and writes nothing that may be the original. writes.py takes away what nobody reads then."""
import re
import sys

import lines
from blocks import reached
from buffers import buffers
from cells import WRITES, length_of
from live import Live, first, shifted
from module import Module
from places import Places
from refusals import end_if_any
from text import bits, bytes_of


class Function:
    """One function: the line that makes each value, and where a pointer leads from a value by a known number of bytes."""

    def __init__(self, function, its):
        self.function, self.lines, self.begin = function, its, function.blocks[0].lines
        self.makers = {line["made"]: line for line in its if "made" in line.words}
        self.calls = [line for line in its if line.kind in ("call", "call_only")]
        self.called = {line["function"].strip('@"') for line in self.calls}

    def base(self, pointer):
        by = 0
        while pointer in self.makers and self.makers[pointer].kind == "place" and self.makers[pointer]["by"][0] != "%":
            pointer, by = self.makers[pointer]["base"], by + int(self.makers[pointer]["by"])
        return pointer, by

    def source(self, line):
        """Where what a line writes was read, and how many of its bytes were; None for all that is no copy."""
        if line.kind in ("move", "copy"):
            return (*self.base(line["source"]), length_of(line) or 0)
        made = self.makers.get(line["value"]) if line.kind == "store" else None
        if made and made.kind == "widen":
            made = self.makers.get(made["value"])
        is_copy = made and made.kind == "load" and bits(made["type"]) % 8 == 0
        return (*self.base(made["place"]), bytes_of(made["type"])) if is_copy else (None, 0, 0)

    def part(self, array, line):
        """The bytes of an array that a line writes; -1, which is all, if that is not known."""
        base, by = self.base(line[WRITES[line.kind]])
        count = bytes_of(line["type"]) if line.kind == "store" else length_of(line)
        return shifted(first(count), by) if base == array and by >= 0 else -1

    def parts(self, array, writes):
        """The writes to an array, each with the bytes that it leaves there.

        In the first block the last one does, unless a call comes before."""
        begin = [line.number for line in self.begin]
        calls = [line.number for line in self.calls if array in line.names()]
        is_first = all(line.number in begin for line in writes) and all(line.number < call for line in writes for call in calls)
        seen = 0
        for line in reversed(writes):
            part = self.part(array, line)
            yield line, part & ~seen
            seen |= part if is_first else 0


class Originals:
    """`found`: for each function and array, the parameter that it is a copy of."""

    def __init__(self, module):
        blocks = {it.name: reached(it) for it in module.functions}
        self.live = Live(Places(module, blocks.get)).follow_all()
        self.places = self.live.places
        self.functions = {it.name: Function(it, self.places.lines[it.name]) for it in module.functions}
        self.written = {name: self.writes(name) for name in self.functions}
        self.found = {}
        for function, array in self.places.sizes:
            original = self.original(self.functions[function], array) if (function, array) not in self.places.lost else None
            if original:
                self.found[function, array] = original

    def writes(self, name):
        """What a function itself writes."""
        return {it for line in self.functions[name].lines if line.kind in WRITES for it, _ in self.places.of(name, line[WRITES[line.kind]])}

    def below(self, name):
        """A function, and all that it may call."""
        seen, left = set(), [name]
        while left:
            name = left.pop()
            if name not in seen:
                seen.add(name)
                left += self.functions[name].called & {*self.functions}
        return seen

    def original(self, function, array):
        """The parameter that an array is a copy of, if there is one."""
        name, it = function.function.name, (function.function.name, array)
        read = self.live.read[it]
        if read <= 0 or any(it in self.written[other] for other in self.functions if other != name):
            return None
        writes = [line for line in function.lines
                  if line.kind in WRITES and it in {to for to, _ in self.places.of(name, line[WRITES[line.kind]])}]
        parts = [(line, part & read) for line, part in function.parts(array, writes) if part & read]
        sources = {function.source(line)[0] for line, _ in parts}
        parameter = sources.pop() if len(sources) == 1 else None
        is_copy = (parameter in {name for _, name in function.function.parameters} and self.is_copy(function, parts, read)
                   and self.is_left(name, parameter, it) and self.is_handed_only(function, array))
        return parameter if is_copy else None

    def is_copy(self, function, parts, read):
        """Whether each byte that is read is written, and only as what stands at the same distance from the original."""
        for line, part in parts:
            by, (_, source, count) = function.base(line[WRITES[line.kind]])[1], function.source(line)
            if by != source or part < 0 or part & ~shifted(first(count), by):
                return False
            read &= ~part
        return read == 0

    def is_left(self, name, parameter, array):
        """Whether what a parameter leads to is arrays with as many bytes, as aligned, which nobody writes before the function returns."""
        size, align = self.places.sizes[array], self.align_of(array)
        places = self.places.of(name, parameter)
        written = set().union(*(self.written[it] for it in self.below(name)))
        return bool(places) and all(it in self.places.sizes and it not in self.places.lost | written and at is not None
                                    and 0 <= at <= self.places.sizes[it] - size and at % align == self.align_of(it) % align == 0
                                    for it, at in places)

    def align_of(self, array):
        return int(self.functions[array[0]].makers[array[1]]["align"])

    def is_handed_only(self, function, array):
        """Whether an array's own function only writes it, and hands it to calls."""
        for line in function.lines:
            for value in line.names():
                if (function.function.name, array) in {it for it, _ in self.places.of(function.function.name, value)}:
                    is_handed = line.kind in ("call", "call_only") and value == array
                    is_written = line.kind in WRITES and value == line[WRITES[line.kind]] and line.names().count(value) == 1
                    if not is_handed and not is_written and line.kind not in ("place", "alive", "dead"):
                        return False
        return True


def main():
    written = open(sys.argv[1], encoding="latin-1").read()
    module = Module(written, lines.OPTIMISED)
    end_if_any()
    originals = Originals(module)
    text = written.split("\n")
    handed = [(line, array, parameter) for (name, array), parameter in originals.found.items() for line in originals.functions[name].calls]
    for line, array, original in [*handed, *buffers(module, originals)]:
        # (what the line promises of the copy's place is left out)
        text[line.number - 1] = re.sub(rf"ptr [a-z() ]*{re.escape(array)}(?=[,)])", f"ptr {original}", text[line.number - 1])
    sys.stdout.write("\n".join(text))


if __name__ == "__main__":
    main()
