#!/usr/bin/env python3
"""plant.py FILE OLD NEW: puts NEW in place of OLD, which is once in the file."""
import sys

with open(sys.argv[1], encoding="utf-8") as file:
    text = file.read()
if text.count(sys.argv[2]) != 1:
    sys.exit(f"{sys.argv[1]}: {sys.argv[2]!r} is there {text.count(sys.argv[2])} times")
with open(sys.argv[1], "w", encoding="utf-8") as file:
    file.write(text.replace(sys.argv[2], sys.argv[3]))
