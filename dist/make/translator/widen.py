#!/usr/bin/env python3
"""widen.py MODULE.ll > WIDE.ll: the module with each pointer in memory as the i64 that it is there on AArch64.

This comes before any optimiser. LLVM may carry 8 bytes that are no pointer as a `ptr`, where a type has a pointer in some cases and other
bytes in others. Where C's pointers have 4 bytes, half of these would be lost."""
import sys

import lines
import module
import text
from refusals import end_if_any


def load(made, type, place, align):
    """A load, of a number or of a pointer."""
    if type != "ptr":
        return [f"{made} = load {type}, ptr {place}, align {align}"]
    return [f"{made}.wide = load i64, ptr {place}, align {align}", f"{made} = inttoptr i64 {made}.wide to ptr"]


def load_pair(line):
    """A pair, half by half: the second one is at the next multiple of its size, as on AArch64."""
    made, first, second, pair = line["made"], line["first"], line["second"], f"{{ {line['first']}, {line['second']} }}"
    by = max(text.bytes_of(first), text.bytes_of(second))
    align = int(line["align"])
    return [*load(f"{made}.first", first, line["place"], align),
            f"{made}.place = getelementptr i8, ptr {line['place']}, i64 {by}",
            *load(f"{made}.second", second, f"{made}.place", min(align, by)),
            f"{made}.half = insertvalue {pair} poison, {first} {made}.first, 0",
            f"{made} = insertvalue {pair} {made}.half, {second} {made}.second, 1"]


def widened(line):
    """What takes the place of a line; None where it stays."""
    if line.kind == "local" and line["type"] == "ptr":
        return [f"{line['made']} = alloca i64, align {line['align']}"]
    if line.kind == "load" and line["type"] == "ptr":
        return load(line["made"], "ptr", line["place"], line["align"])
    if line.kind == "load_pair":
        return load_pair(line)
    if line.kind == "store" and line["type"] == "ptr":
        wide = f"%wide.{line.number}"
        return [f"{wide} = ptrtoint ptr {line['value']} to i64", f"store i64 {wide}, ptr {line['place']}, align {line['align']}"]
    return None


def main():
    written = open(sys.argv[1], encoding="latin-1").read()
    its = {line.number: line for it in module.Module(written, lines.FROM_KIT).functions for block in it.blocks for line in block.lines}
    end_if_any()
    for number, line in enumerate(written.rstrip("\n").split("\n"), 1):
        instead = widened(its[number]) if number in its else None
        print(line if instead is None else "\n".join("  " + it for it in instead))


if __name__ == "__main__":
    main()
