#!/usr/bin/env python3
"""Prints what the machine code below a function takes: its deepest stack, and how many bytes of code it is.

The stack is what each function pushes and sets aside, along the deepest chain of calls; no call may be in a cycle. A call by a
pointer is not followed, and a function of the C library counts as its entry alone.
"""
import bisect
import re
import subprocess
import sys


def read(path):
    """What each function takes of the stack, whom it calls (with 8 bytes for the place to return to), and how long it is."""
    text = subprocess.run(["objdump", "-d", "--no-show-raw-insn", path], capture_output=True, text=True, check=True).stdout
    names, takes, calls, name = {}, {}, {}, None
    for line in text.split("\n"):
        head = re.match(r"^([0-9a-f]+) <(.*)>:$", line)
        if head:
            name = head[2]
            names[int(head[1], 16)], takes[name], calls[name] = name, 0, []
        if name is None:
            continue
        aside = re.search(r"\tsub\s+\$0x([0-9a-f]+),%rsp", line)
        if aside and int(aside[1], 16) < 2**31:
            takes[name] += int(aside[1], 16)
        if re.search(r"\tpush\s", line):
            takes[name] += 8
        to = re.search(r"\t(call|j\w+)\s+([0-9a-f]+) <", line)
        if to:
            calls[name].append((int(to[2], 16), 8 if to[1] == "call" else 0))
    starts = sorted(names)

    def owner(place):
        return names[starts[bisect.bisect_right(starts, place) - 1]]

    below = {name: {(owner(place), back) for place, back in found if owner(place) != name} for name, found in calls.items()}
    sizes = {names[at]: until - at for at, until in zip(starts, starts[1:] + [starts[-1]])}
    return takes, below, sizes


def deepest(takes, below, name, path=()):
    """The deepest stack below a function, with its own."""
    if name in path:
        raise SystemExit(f"{name} calls itself")
    return takes[name] + max([back + deepest(takes, below, callee, (*path, name)) for callee, back in below[name]], default=0)


def reached(below, name, seen):
    """The functions that a function calls, and itself."""
    if name not in seen:
        seen.add(name)
        for callee, _ in below[name]:
            reached(below, callee, seen)
    return seen


def main():
    takes, below, sizes = read(sys.argv[1])
    for name in sys.argv[2:]:
        code = sum(sizes[one] for one in reached(below, name, set()) if "@plt" not in one)
        print(f"{deepest(takes, below, name)} bytes of stack, {code} of code: {name}")


main()
