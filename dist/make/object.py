#!/usr/bin/env python3
"""object.py ONE OTHER: whether two ELF files of 64 bits are the same but for the names of what is local to them.

Compared are the sections that are loaded, in their order: kind, flags, alignment, bytes and relocations, where a
relocation to something local counts as the section and the place that it leads to; and each name that is not
local, with its kind, place and size. The linker's build id is not compared: it is a sum of the names too.

Statuses: 0 the same, 1 not, with the first difference on standard error; 2 words or files that aren't understood.
"""

import struct
import sys
from typing import NamedTuple

SYMBOLS, RELOCATIONS, NOTE, NO_BYTES, LOADED = 2, 4, 7, 8, 2


class Section(NamedTuple):
    name: int
    kind: int
    flags: int
    address: int
    offset: int
    size: int
    link: int
    info: int
    alignment: int
    entry: int


class Symbol(NamedTuple):
    name: int
    info: int
    other: int
    section: int
    value: int
    size: int


class Elf:
    def __init__(self, path):
        with open(path, "rb") as file:
            self.data = file.read()
        if self.data[:6] != b"\x7fELF\x02\x01":
            raise ValueError(f"{path} is no ELF file of 64 bits, little-endian")
        (table,) = struct.unpack_from("<Q", self.data, 40)
        entry, count = struct.unpack_from("<HH", self.data, 58)
        read = lambda at: Section._make(struct.unpack_from("<IIQQQQIIQQ", self.data, at))
        # (where the sections are too many for the head, the first one holds their number)
        count = count or read(table).size
        self.sections = [read(table + i * entry) for i in range(count)]
        self.loaded = {}
        for number, section in enumerate(self.sections):
            if section.flags & LOADED and (section.size or self.relocations_of(number)):
                self.loaded[number] = len(self.loaded)
        self.symbols, self.names = [], None
        for section in self.sections:
            if section.kind == SYMBOLS:
                self.names = self.sections[section.link]
                self.symbols = [Symbol._make(it) for it in self.rows(section, "<IBBHQQ")]

    def rows(self, section, form):
        return struct.iter_unpack(form, self.bytes_of(section))

    def bytes_of(self, section):
        return b"" if section.kind == NO_BYTES else self.data[section.offset : section.offset + section.size]

    def name(self, symbol):
        at = self.names.offset + symbol.name
        return self.data[at : self.data.index(b"\0", at)].decode()

    def relocations_of(self, number):
        """The sections that hold relocations of this one."""
        return [it for it in self.sections if it.kind == RELOCATIONS and it.info == number and not it.flags & LOADED]

    def is_build_id(self, section):
        return section.kind == NOTE and self.bytes_of(section)[12:16] == b"GNU\0" and section.size == 36

    def is_local(self, symbol):
        return symbol.info >> 4 == 0

    def relocations(self, number):
        for section in self.relocations_of(number):
            for offset, info, addend in sorted(self.rows(section, "<QQq")):
                symbol = self.symbols[info >> 32]
                if self.is_local(symbol) and symbol.section in self.loaded:
                    yield offset, info & 0xFFFFFFFF, self.loaded[symbol.section], symbol.value + addend
                else:
                    yield offset, info & 0xFFFFFFFF, self.name(symbol), addend

    def facts(self):
        """All that is compared, each with what a message calls it."""
        for number, place in self.loaded.items():
            it = self.sections[number]
            what = f"section {place}"
            yield what, (it.kind, it.flags, it.alignment, it.size, it.address)
            if not self.is_build_id(it):
                yield f"the bytes of {what}", self.bytes_of(it)
            for relocation in self.relocations(number):
                yield f"a relocation of {what}", relocation
        for symbol in sorted(self.symbols, key=self.name):
            if not self.is_local(symbol):
                place = self.loaded.get(symbol.section, symbol.section)
                yield f"the name {self.name(symbol)}", (self.name(symbol), symbol.info, symbol.other, place, symbol.value, symbol.size)


def short(fact):
    text = fact.hex() if isinstance(fact, bytes) else str(fact)
    return text if len(text) <= 100 else text[:100] + ".."


def main(words):
    if len(words) != 2:
        print("usage: dist/make/object.py ONE OTHER", file=sys.stderr)
        return 2
    try:
        ones, others = [list(Elf(path).facts()) for path in words]
    except (OSError, ValueError, struct.error, IndexError) as error:
        print(f"object: {error}", file=sys.stderr)
        return 2
    for one, other in zip(ones, others):
        if one != other:
            print(f"object: {one[0]}: {short(one[1])}, and {other[0]}: {short(other[1])}", file=sys.stderr)
            return 1
    if len(ones) != len(others):
        print(f"object: one has {len(ones)} facts, and the other {len(others)}", file=sys.stderr)
        return 1
    return 0 if ones else 2


if __name__ == "__main__":
    sys.exit(main(sys.argv[1:]))
