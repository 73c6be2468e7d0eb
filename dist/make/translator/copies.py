#!/usr/bin/env python3
"""copies.py WIDE.ll > COPIED.ll: the module in which the kit's copy of a slice of bytes over another one is LLVM's move of bytes.

The kit copies element by element, and backwards or forwards as the two places lie. Of `copy_from_slice` it is proved that the first slice
has the bytes of the second one afterwards, where both have the same length; what is borrowed to be written overlaps nothing else. A move of
so many bytes does that."""
import re
import sys

import text
from refusals import end_if_any, refuse

COPY = re.compile(r'define internal [^@]*@"core::slice::edits::slice\+T::copy_from_slice::<i8,[^"]*>"')
HEAD = re.compile(r'define internal void @"[^"]*"\(ptr %a0, i64 %a1, ptr %a2, i64 %a3\) \{')
BODY = """start:
  call void @llvm.memmove.p0.p0.i64(ptr %a0, ptr %a2, i64 %a3, i1 false)
  ret void"""


def copied(written):
    """The lines, with another body of the copy, if there is one."""
    is_inside = False
    for number, line in enumerate(written.split("\n"), 1):
        if COPY.match(line):
            if not HEAD.fullmatch(text.plainly(line)):
                refuse(number, "a copy of bytes that the translator does not know", line)
            is_inside = True
            yield line + "\n" + BODY
        elif line == "}" or not is_inside:
            is_inside = False
            yield line


def main():
    lines = "\n".join(copied(open(sys.argv[1], encoding="latin-1").read()))
    end_if_any()
    sys.stdout.write(lines)


if __name__ == "__main__":
    main()
