"""What a function's text needs not: locals that are memory in the module and variables in C, and lines whose result nobody reads."""

# Lines that do nothing but make their value.
MAKERS = ("local", "array", "load", "load_pair", "place", "sum", "compare", "compare_places", "widen", "narrow", "half", "address",
          "choose", "same", "put_half", "to_number", "to_place", "row", "least", "product", "phi")


def variables(blocks):
    """The locals of one plain type that are only loaded and stored, each time as a whole: name and type."""
    lines = [line for block in blocks for line in block.lines]
    types = {line["made"]: line["type"] for line in lines if line.kind == "local"}
    for line in lines:
        is_whole = line.kind in ("load", "store") and types.get(line["place"]) == line["type"]
        for name in line.names():
            if name in types and not (is_whole and line["place"] == name and line.names().count(name) == 1):
                del types[name]
    return types


def without_idle(blocks, types):
    """Takes lines out of the blocks until each one that is left is read, or does something. Gives how often each name is read."""
    while True:
        uses, loaded = {}, set()
        for block in blocks:
            for line in block.lines:
                for name in line.names():
                    uses[name] = uses.get(name, 0) + 1
                if line.kind == "load":
                    loaded.add(line["place"])

        def is_idle(line):
            if line.kind == "store" and line["place"] in types:
                return line["place"] not in loaded
            return line.kind in MAKERS and line["made"] not in uses

        if not any(is_idle(line) for block in blocks for line in block.lines):
            return uses
        for block in blocks:
            block.lines = [line for line in block.lines if not is_idle(line)]
