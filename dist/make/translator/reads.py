#!/usr/bin/env python3
"""reads.py WIDE.ll > READS.ll: the module in which a function of the program's reads the flash, for a part that is not mapped.

The crates copy bytes of flash in one function, and ask another one whether flash is memory, of which they are proved for both answers. Here
the one hands its two places and its number on, and the other one answers no. A module that has no such functions is refused."""
import re
import sys

import text
from refusals import end_if_any, refuse

COPY = re.compile(r'define internal void @"dfu_slots::read::read_flash"\(ptr %a0, i64 %a1, ptr %a2, i64 %a3\) \{')
ASKS = re.compile(r'define internal (i1|i8) @"dfu_slots::read::is_mapped"\(\) \{')
COPIED = f"""start:
  call void {text.READER}(ptr %a0, ptr %a2, i64 %a3)
  ret void"""


def body_of(line):
    """The body that takes the place of this function's; None for any other line."""
    plain = text.plainly(line)
    asks = ASKS.fullmatch(plain)
    if asks:
        return f"start:\n  ret {asks[1]} {'false' if asks[1] == 'i1' else 0}"
    return COPIED if COPY.fullmatch(plain) else None


def handed_on(written):
    """The lines, with other bodies of the two."""
    found, is_inside = 0, False
    for line in written.split("\n"):
        body = body_of(line) if line.startswith("define ") else None
        if body:
            found, is_inside = found + 1, True
            yield line + "\n" + body
        elif line == "}" or not is_inside:
            is_inside = False
            yield line
    if found != 2:
        refuse(0, "a module that does not read its flash by one function", f"{found} of 2")
    yield f"declare void {text.READER}(ptr, ptr, i64)\n"


def main():
    lines = "\n".join(handed_on(open(sys.argv[1], encoding="latin-1").read()))
    end_if_any()
    sys.stdout.write(lines)


if __name__ == "__main__":
    main()
