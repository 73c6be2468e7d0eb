#!/usr/bin/env python3
"""fills.py SMALL.ll > FEWER.ll: the module without those fills of local arrays with zeros of which no zero is read.

zeros.py follows the zeros of each fill. What it says is read, or may come to where it does not follow them, keeps its fill; so does each
fill of a function that C calls, so that the records of C have the same bytes between their members."""
import sys

import lines
from module import Module
from refusals import end_if_any
from zeros import Function


def unread(module):
    """The numbers of the lines that may go."""
    functions, fills, read = {it.name: it for it in module.functions}, set(), set()
    known, calls_itself = {}, set()

    def known_of(name, callers=()):
        """What a function does to the places that it is handed; None of one that calls itself, and of what is not there."""
        if name in callers or name not in functions:
            calls_itself.add(name)
            return None
        if name not in known:
            known[name] = Function(functions[name], lambda it: known_of(it, (*callers, name)))
        return known[name]

    for name in functions:
        found = known_of(name)
        fills |= found.fills
        read |= found.zeros_read
    for name, found in known.items():
        fills |= set() if name in calls_itself else found.handed
    return fills - read


def main():
    written = open(sys.argv[1], encoding="latin-1").read()
    module = Module(written, lines.OPTIMISED)
    end_if_any()
    gone = unread(module)
    sys.stdout.write("\n".join(line for number, line in enumerate(written.split("\n"), 1) if number not in gone))


if __name__ == "__main__":
    main()
