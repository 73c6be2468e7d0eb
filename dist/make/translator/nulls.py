"""Leaves out what an export does for NULL, if its header has the words SAYS.

The kit's module takes 4096 for such a place. A comparison of a parameter with NULL is false then, and so is what is chosen by it."""
import re

import lines

SAYS = "no pointer may be NULL, even with length 0"


def without_null(function):
    """Puts the values that are known then into the lines that read them, and takes the lines that made them out."""
    pointers, known = {name for type, name in function.parameters if type == "ptr"}, {}
    for block in function.blocks:
        for line in block.lines:
            if line.kind == "compare_places" and line["left"] in pointers and line["right"] == "null":
                known[line["made"]] = "false" if line["order"] == "eq" else "true"
    for block in function.blocks:
        for line in block.lines:
            if line.kind == "choose" and line["choice"] in known:
                value = line["left" if known[line["choice"]] == "true" else "right"]
                if re.fullmatch("-?[0-9]+", value):
                    known[line["made"]] = value
    for block in function.blocks:
        block.lines = [put(line, known) for line in block.lines if line.words.get("made") not in known]


def put(line, known):
    """A line with numbers in place of these names."""
    if not known.keys() & {*line.names()}:
        return line
    written = re.sub(r"%[-A-Za-z0-9._$]+", lambda it: known.get(it[0], it[0]), line.written)
    return lines.read_line(line.number, written, lines.OPTIMISED)
