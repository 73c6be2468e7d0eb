#!/usr/bin/env python3
"""files.py TOP DUMP..: the source files of TOP/crates of which code ran, by what valgrind's callgrind dumped, one a line. A
function's name is its path, as dfu_host::session::Session::phase: the file is the longest that such a path begins with, or, if no function
of this name is there, the one with an `impl` of the type that has it."""
import functools
import glob
import os
import re
import sys


@functools.lru_cache(maxsize=None)
def text_of(path):
    with open(path, encoding="utf-8") as file:
        return file.read()


def has_function(path, name):
    return re.search(rf"\bfn {re.escape(name)}\b", text_of(path)) is not None


def has_impl(path, kind):
    """Whether a file has an `impl` of a type. A trait's name may follow the type's, as in SharedWriterWrite."""
    names = re.findall(r"^impl\b[^{]*?\b([A-Z]\w*)(?:<[^{]*>)?\s*(?:where\b[^{]*)?\{", text_of(path), re.M)
    return any(kind.startswith(it) for it in names)


def named_file(top, parts):
    """The file that a path begins with, or None if it is not of the crates."""
    crate = os.path.join("crates", parts[0], "src")
    for count in range(len(parts), 1, -1):
        path = os.path.join(crate, *parts[1:count]) + ".rt"
        if os.path.isfile(os.path.join(top, path)):
            return path
    for root in ("main.rt", "lib.rt"):
        path = os.path.join(crate, root)
        if os.path.isfile(os.path.join(top, path)):
            return path
    return None


def file_of(top, name):
    """The file of a function, or None if it is not of the crates."""
    parts = re.split(r"::", re.split(r"[<({]", name)[0])
    if len(parts) > 1 and "++" in parts[1]:
        parts = parts[1].split("+T", 1)[0].split("++")
    named = named_file(top, parts)
    parts = [it for it in parts if it]
    if named is None or len(parts) < 3 or not parts[-2][:1].isupper():
        return named
    kind, function = parts[-2], parts[-1].split("+")[0]
    if has_function(os.path.join(top, named), function):
        return named
    others = glob.glob(os.path.join(top, "crates", parts[0], "src", "**", "*.rt"), recursive=True)
    found = [it for it in others if has_function(it, function) and has_impl(it, kind)]
    return os.path.relpath(found[0], top) if len(found) == 1 else named


def names_in(dump):
    """The functions of which an instruction ran. A function that waits for one that it called has a part too, with the cost of that call
    alone; and a callee's name stands in its own part."""
    known, name, is_call = {}, None, False
    with open(dump, encoding="utf-8", errors="replace") as lines:
        for line in lines:
            found = re.match(r"c?fn=\((\d+)\)(?: (.*))?$", line)
            if found and found[2]:
                known[found[1]] = found[2]
            if found and line.startswith("fn="):
                name = known[found[1]]
            elif line.startswith("calls="):
                is_call = True
            elif re.match(r"[-+*\d]", line):
                # (the line behind a call has what the callee costs)
                if name and not is_call and any(int(cost) for cost in line.split()[1:]):
                    yield name
                is_call = False


top, *dumps = sys.argv[1:]
found = {file_of(top, name) for dump in dumps for name in names_in(dump)}
print(*sorted(it for it in found if it), sep="\n")
