#!/usr/bin/env python3
"""either.py WORD PLAIN.c OTHER.c: PLAIN.c, and where OTHER.c differs both, of which a compiler takes the other one if WORD is defined.

A function stands whole in both. So what a compiler reads without WORD is PLAIN.c, line by line."""
import difflib
import re
import sys

BEGIN = re.compile(r"/\* \S+: \S+ \*/|/\* \S+ \*/")


def parts(written):
    """The functions, each with the comment above it and the empty line below it, and the lines outside of functions."""
    found, inside = [], None
    for line in written.splitlines(keepends=True):
        if inside is None and BEGIN.fullmatch(line.rstrip("\n")):
            inside = line
        elif inside is None:
            found.append(line)
        else:
            inside += line
            if line == "}\n":
                found.append(inside)
                inside = None
    return found + [inside] * (inside is not None)


def main():
    word, plain, other = sys.argv[1], *(parts(open(it, encoding="utf-8").read()) for it in sys.argv[2:])
    for kind, a, b, c, d in difflib.SequenceMatcher(None, plain, other, False).get_opcodes():
        mine, its = "".join(plain[a:b]), "".join(other[c:d])
        if kind == "equal":
            sys.stdout.write(mine)
        elif not mine:
            sys.stdout.write(f"#ifdef {word}\n{its}#endif\n")
        else:
            sys.stdout.write(f"#ifndef {word}\n{mine}" + f"#else\n{its}" * bool(its) + "#endif\n")


if __name__ == "__main__":
    main()
