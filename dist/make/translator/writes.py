#!/usr/bin/env python3
"""writes.py SMALL.ll > FEWER.ll: the module without the stores, copies and fills whose bytes nobody reads.

They write to arrays of the module alone: bytes between the members of a record, say, or a member that its reader never looks at. What is
written to memory of C stays, and so does what is written where live.py does not follow."""
import sys

import lines
from blocks import reached
from live import Live
from module import Module
from places import Places
from refusals import end_if_any


def main():
    written = open(sys.argv[1], encoding="latin-1").read()
    module = Module(written, lines.OPTIMISED)
    end_if_any()
    blocks = {it.name: reached(it) for it in module.functions}
    live = Live(Places(module, blocks.get)).follow_all()
    gone = {line.number for function, its in live.places.lines.items() for line in its if live.is_unread(function, line)}
    sys.stdout.write("\n".join(line for number, line in enumerate(written.split("\n"), 1) if number not in gone))


if __name__ == "__main__":
    main()
