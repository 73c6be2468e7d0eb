"""Which calls are handed a buffer that the line before fills with a copy, and read only what was copied."""
from conditions import Conditions
from counts import through_bytes


def buffers(module, originals):
    """Each such call, with the buffer and the place of the original."""
    functions = {it.name: it for it in module.functions}
    for function in module.functions:
        for block in function.blocks:
            for copy, call in zip(block.lines, block.lines[1:]):
                called = functions.get(call["function"].strip('@"')) if call.kind in ("call", "call_only") else None
                if called and copy.kind in ("copy", "move") and is_buffer(originals, function.name, copy, called, call):
                    yield call, copy["to"], copy["source"]


def is_buffer(originals, name, copy, called, call):
    """Whether a call reads of the array that a copy goes to only what was copied, and writes nothing that may be the original."""
    places, array = originals.places, (name, copy["to"])
    handed = [parameter for (_, parameter), (_, value) in zip(called.parameters, call.given) if value == copy["to"]]
    lengths = {parameter for (_, parameter), (_, value) in zip(called.parameters, call.given) if value == copy["length"]}
    pointers = [value for type, value in call.given if type == "ptr" and array in {it for it, _ in places.of(name, value)}]
    if array not in places.sizes or array in places.lost or len(handed) != 1 or len(pointers) != 1:
        return False
    written = set().union(*(originals.written[it] for it in originals.below(called.name)))
    of_copy = {it for it, _ in places.of(name, copy["source"])} | {array}
    is_left = bool(of_copy) and all(it in places.sizes and it not in places.lost | of_copy for it in written)
    return is_left and reads_counted(Conditions(called), handed[0], lengths)


def reads_counted(conditions, parameter, lengths):
    """Whether a function only reads what a parameter leads to, a byte in each turn of a loop that counts to one of these lengths."""
    loops = [loop for loop in through_bytes(conditions).values() if loop.to in lengths]
    lines = [(block.label, line) for block in conditions.blocks for line in block.lines]
    bytes = set()
    for _, line in lines:
        if parameter in line.names():
            if line.kind != "place" or line["base"] != parameter or line["by"] not in {loop.count for loop in loops}:
                return False
            bytes.add((line["made"], line["by"]))
    turns = {loop.count: loop.turn for loop in loops}
    return bool(bytes) and all(line.kind == "load" and line["type"] == "i8" and label in turns[count]
                               for label, line in lines for place, count in bytes if place in line.names())
