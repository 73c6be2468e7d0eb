#!/usr/bin/env python3
"""erase.py [--program] TOP FOLDER: makes plain Rust of the proved crates of a repository in FOLDER, which is not there yet: of the
libraries one package for cargo; with --program a workspace of that package and of the program `dfu`.

Contracts, ghost items, laws and tactics go; code, names, comments and their order stay. What is not known is refused, with its file and
line: then nothing is written, and the status is 1. README.md says what is changed."""
import sys

from package import package_of, write
from refusal import Refusal
from workspace import workspace_of


def main():
    words = [it for it in sys.argv[1:] if it != "--program"]
    if len(words) != 2:
        print("usage: erase.py [--program] TOP FOLDER", file=sys.stderr)
        return 2
    made = package_of if len(words) == len(sys.argv) - 1 else workspace_of
    try:
        write(made(words[0]), words[1])
    except Refusal as refusal:
        print(f"eraser: {refusal}", file=sys.stderr)
        return 1
    return 0


if __name__ == "__main__":
    sys.exit(main())
