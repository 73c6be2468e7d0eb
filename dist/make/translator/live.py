"""Which bytes of a module's arrays are read, over all its functions: by a load, by a copy to a byte that is read or to what is not
followed, or by whoever has a pointer as a number. All begin unread, and each line adds what it reads. A write of bytes that nobody
reads may go."""
from cells import WRITES, length_of
from text import bytes_of

ALL = -1


def first(count):
    """A mask of the first `count` bytes, one bit for each byte; of all bytes, if the count is None."""
    return ALL if count is None else (1 << count) - 1


def shifted(bytes, by):
    return bytes << by if by >= 0 else bytes >> -by


class Live:
    """`count_of(function, line)`: how many bytes of its number a load takes, if not all."""

    def __init__(self, places, count_of=lambda function, line: bytes_of(line["type"])):
        self.places, self.count_of = places, count_of
        self.read = {it: ALL if it in places.lost else 0 for it in places.sizes}

    def follow_all(self):
        """Adds until nothing changes."""
        while any([self.follow(function, line) for function, lines in self.places.lines.items() for line in lines]):
            pass
        return self

    def follow(self, function, line):
        """Adds what a line reads; whether anything is new."""
        if line.kind == "load":
            return self.add(function, line["place"], first(self.count_of(function, line)))
        if line.kind in ("move", "copy"):
            return self.add(function, line["source"], self.wanted(function, line["to"], length_of(line)))
        return False

    def add(self, function, place, bytes):
        has_changed = False
        for it, at in self.places.of(function, place) if bytes else ():
            if it in self.read:
                new = self.read[it] | (ALL if at is None or bytes == ALL else shifted(bytes, at) & first(self.places.sizes[it]))
                has_changed |= new != self.read[it]
                self.read[it] = new
        return has_changed

    def wanted(self, function, place, count):
        """A mask of those of `count` bytes from a place on that are read; all of them, if the count is None and any byte is read."""
        found = 0
        for it, at in self.places.of(function, place):
            if it not in self.read:
                return first(count)
            found |= (ALL if self.read[it] else 0) if at is None or count is None else shifted(self.read[it], -at) & first(count)
        return found & first(count)

    def is_unread(self, function, line):
        """Whether nobody reads what a line writes."""
        if line.kind not in WRITES:
            return False
        count = bytes_of(line["type"]) if line.kind == "store" else length_of(line)
        return self.wanted(function, line[WRITES[line.kind]], count) == 0
