"""Which comparisons end a loop that goes through bytes of memory: it counts 0, 1, 2 and so on up to a number, and reads or writes a byte
at that place of the same memory in each turn.

So many bytes lie there, one after the other, as it is proved, so the number is a size. Where a size_t has 32 bits, the low 32 of the count
and of the number say as much as all. A loop that may end before, that calls, or that has another loop in it, is none of these: it may
come to its end before it has gone through so many bytes."""
from typing import NamedTuple

STOPS = ("call", "call_only", "trap", "never", "give", "give_nothing")


class Count(NamedTuple):
    """Such a loop: the count, the number that it comes to, and the labels of its blocks behind the first one."""
    count: str
    to: str
    turn: set


def through_bytes(conditions):
    """Such loops of a function, by the numbers of the lines of their comparisons."""
    found = {line.number: counted(conditions, block, line) for block in conditions.blocks for line in block.lines
             if line.kind == "compare" and line["type"] == "i64"}
    return {number: it for number, it in found.items() if it}


def counted(conditions, block, compare):
    """The loop that a comparison ends, whose first block this is; None if it ends none."""
    end = block.lines[-1]
    if end.kind != "branch" or end["value"] != compare["made"] or compare["order"] not in ("eq", "ne"):
        return None
    goes_on, ends = (end["no"], end["yes"]) if compare["order"] == "eq" else (end["yes"], end["no"])
    turn = blocks_from(conditions, goes_on, block.label)
    if ends in turn or not turn or not is_one_way(conditions, block, turn):
        return None
    phis = {line["made"]: line for line in block.lines if line.kind == "phi"}
    for count, to in ((compare["left"], compare["right"]), (compare["right"], compare["left"])):
        if count in phis and is_fixed(conditions, block, to) and goes_by_ones(conditions, phis[count], turn):
            if has_byte(conditions, block, turn, phis[count]):
                return Count(count, to, turn)
    return None



def blocks_from(conditions, label, first):
    """The labels that a way leads to before it comes to a loop's first block again."""
    found, left = set(), [label]
    while left:
        label = left.pop()
        if label != first and label not in found:
            found.add(label)
            left += conditions.by_label[label].lines[-1].goes_to()
    return found


def is_one_way(conditions, block, turn):
    """Whether a loop begins in its first block alone, is left there alone, and has neither a call nor another loop in it."""
    lines = [line for label in (block.label, *turn) for line in conditions.by_label[label].lines]
    if any(line.kind in STOPS for line in lines) or not all(block.label in conditions.above[label] for label in turn):
        return False
    left = set(turn)
    while True:
        last = {label for label in left if not left & {*conditions.by_label[label].lines[-1].goes_to()}}
        if not last:
            return not left
        left -= last


def is_fixed(conditions, block, value):
    """Whether a value is made before a loop, whose first block this is."""
    made = conditions.makers.get(value)
    return made is None or made[0].label in conditions.above[block.label] - {block.label}


def goes_by_ones(conditions, phi, turn):
    """Whether a number is 0 when a loop begins, and one more after each turn."""
    return all(conditions.is_step(value, phi["made"]) if label in turn else value == "0" for value, label in phi.rows)


def has_byte(conditions, block, turn, phi):
    """Tells if each turn reads or writes a byte that lies as far behind a fixed place as the loop has counted."""
    ways_back = [label for _, label in phi.rows if label in turn]
    for label in turn:
        if all(label in conditions.above[it] for it in ways_back):
            for line in conditions.by_label[label].lines:
                made = conditions.makers.get(line["place"], (None, None))[1] if line.kind in ("load", "store") else None
                if made and made.kind == "place" and made["by"] == phi["made"] and is_fixed(conditions, block, made["base"]):
                    return True
    return False
