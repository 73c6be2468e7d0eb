"""Which parameters of 64 bits are a size_t in C though they may be more, because each reader asks only for the least of it and a number of
at most 32 bits. Where a size_t has 32 bits, a caller hands over the largest size_t in place of a number beyond."""


def capped(module, sizes):
    """These parameters, as (function, name). `sizes` says which numbers have at most 32 bits."""
    functions = {it.name: it for it in module.functions}
    found = {(it.name, name) for it in module.functions if not it.is_export for type, name in it.parameters
             if type == "i64" and not sizes.is_size(it.name, name)}
    has_changed = True
    while has_changed:
        has_changed = False
        for function in module.functions:
            for block in sizes.ranges.conditions[function.name].blocks:
                for line in block.lines:
                    whole = {(function.name, it) for it in read_whole(function.name, line, functions, found, sizes)} & found
                    has_changed |= bool(whole)
                    found -= whole
    return found


def read_whole(function, line, functions, found, sizes):
    """What a line reads otherwise."""
    if line.kind == "least" and line["least"] == "umin":
        return [it for it, other in ((line["left"], line["right"]), (line["right"], line["left"])) if not is_low(function, other, sizes)]
    if line.kind in ("call", "call_only"):
        called = functions.get(line["function"].strip('@"'))
        names = [name for _, name in called.parameters] if called else [None] * len(line.given)
        return [value for (_, value), name in zip(line.given, names) if name is None or (called.name, name) not in found]
    return line.names()


def is_low(function, value, sizes):
    return sizes.is_low(function, value) if value[0] == "%" else value.isdigit() and int(value) < 1 << 32
