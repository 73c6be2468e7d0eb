#!/usr/bin/env python3
"""served.py FILE: a WebAssembly module as a page serves it, on standard output: up to its last section that is no
custom one. The sections after that name functions and tools, and no engine needs them.

Statuses: 0 written, 2 a file that is no module.
"""

import sys

CUSTOM = 0


def number(data, at):
    """The number in LEB128 at a place, and the place after it."""
    value = shift = 0
    while True:
        byte = data[at]
        at += 1
        value |= (byte & 127) << shift
        shift += 7
        if byte < 128:
            return value, at


def end_of_code(data):
    """The end of the last section that is no custom one."""
    if data[:8] != b"\0asm\1\0\0\0":
        raise ValueError("it doesn't begin as a module does")
    at = end = 8
    while at < len(data):
        kind = data[at]
        size, at = number(data, at + 1)
        at += size
        if at > len(data):
            raise ValueError("a section is longer than the file")
        if kind != CUSTOM:
            end = at
    return end


def main(words):
    if len(words) != 1:
        print("usage: dist/make/served.py FILE", file=sys.stderr)
        return 2
    try:
        with open(words[0], "rb") as file:
            data = file.read()
        end = end_of_code(data)
    except (OSError, ValueError, IndexError) as error:
        print(f"served: {words[0]}: {error}", file=sys.stderr)
        return 2
    sys.stdout.buffer.write(data[:end])
    return 0


if __name__ == "__main__":
    sys.exit(main(sys.argv[1:]))
