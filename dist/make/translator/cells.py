"""What the arrays of a module hold at most, byte by byte, as ranges.py walks through it.

Each byte begins with 0. A store, a copy and a fill raise the bytes that they may write to the most that they write there; nothing
lowers them. So a number that is read is at most what its bytes make. What C or a number leads to may hold anything; if something is
written where a number leads to, so may each array that may be there."""
from places import BY_NUMBER, OF_C, Places
from text import bytes_of

WRITES = {"store": "place", "move": "to", "copy": "to", "fill": "to"}


def first(most, count):
    """The most of each of the bytes of a number that is at most this."""
    return [255 if most >> (8 * k + 8) else (most >> 8 * k) & 255 for k in range(count)]


def length_of(line):
    """How many bytes are copied or filled; None if a value says so, or it is no number of bytes."""
    return int(line["length"]) if line["length"].isdigit() else None


class Cells:
    def __init__(self, module, blocks_of):
        self.places = Places(module, blocks_of)
        self.held = {it: bytearray(size) for it, size in self.places.sizes.items()}
        self.rows = {it.name: max(it.rows, default=0) for it in module.tables}
        for table in module.tables:
            size = bytes_of(table.type)
            self.held["", table.name] = bytearray(b"".join(it.to_bytes(size, "little") for it in table.rows))
        for function, lines in self.places.lines.items():
            for line in lines:
                if line.kind in WRITES and BY_NUMBER in {it for it, _ in self.places.of(function, line[WRITES[line.kind]])}:
                    for it in self.places.lost:
                        self.held.pop(it, None)
        self.has_changed = False

    def most_read(self, function, place, type):
        """The most that a number of this type may be that is read at a place; None if any."""
        most = 0
        for it, at in self.places.of(function, place):
            if it not in self.held:
                return None
            most = max(most, sum(byte << 8 * k for k, byte in enumerate(self.bytes_at(it, at, bytes_of(type)))))
        return most

    def bytes_at(self, it, at, count):
        """The most of each byte there, as far as the object goes."""
        held = self.held[it]
        if at is None:
            return [max(held, default=0)] * (len(held) if count is None else count)
        return held[max(at, 0):] if count is None else held[max(at, 0):max(at + count, 0)]

    def write(self, function, line, most):
        """What a line writes; `most` is the most of the value that it stores or fills with."""
        count = bytes_of(line["type"]) if line.kind == "store" else length_of(line)
        for it, at in self.places.of(function, line[WRITES[line.kind]]):
            if it in self.held:
                left = len(self.held[it]) if count is None else count
                self.raise_bytes(it, at, self.written(function, line, left, most))

    def written(self, function, line, count, most):
        """The most of each byte that a line writes."""
        if line.kind == "store":
            return first(most, count)
        if line.kind == "fill":
            return [most] * count
        found = [0] * count
        for it, at in self.places.of(function, line["source"]):
            if it not in self.held:
                return [255] * count
            for k, byte in enumerate(self.bytes_at(it, at, count)):
                found[k] = max(found[k], byte)
        return found

    def raise_bytes(self, it, at, found):
        held = self.held[it]
        if at is None:
            at, found = 0, [max(found, default=0)] * len(held)
        for k, byte in enumerate(found, at):
            if 0 <= k < len(held) and byte > held[k]:
                held[k] = byte
                self.has_changed = True
