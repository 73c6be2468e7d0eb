"""Which of a module's i64 are a size_t in C: 32 bits on a processor of 32 bits, and 64 on one of 64.

One is so if it has at most 32 bits, as ranges.py finds where size_t has 32; or if nobody reads more than its low 32 bits then: a place
that it moves, a number of bytes, a number of 32 bits that is made of it, the end of a loop through bytes (counts.py). All begin as such,
and each line that reads more takes what it reads away."""
from caps import capped
from counts import through_bytes
from live import Live
from ranges import SIZE, Ranges
from text import READER, bits, bytes_of, constant

# Sums whose low bits are made of low bits alone.
BY_LOW_BITS = ("add", "sub", "mul", "and", "or", "xor")
# Lines that read the low bits of a number, by the word that says which.
READS_LOW = {"place": "by", "row": "by", "move": "length", "copy": "length", "fill": "length", "to_place": "value"}


class Sizes:
    """`is_size(function, name)`: whether a value of 64 bits is a size_t; by Ranges.RESULT a function's result."""

    def __init__(self, module, header):
        self.ranges = Ranges(module, header)
        self.functions = {it.name: it for it in module.functions}
        self.read_whole = {it.name: set() for it in module.functions}
        self.live = Live(self.ranges.cells.places, self.bytes_loaded)
        self.capped = set()
        self.counts = {number: loop for it in self.ranges.conditions.values() for number, loop in through_bytes(it).items()}
        has_changed = True
        while has_changed:
            has_changed = False
            for function in module.functions:
                read = self.read_whole[function.name]
                for block in self.ranges.conditions[function.name].blocks:
                    for line in block.lines:
                        has_changed |= self.live.follow(function.name, line)
                        new = {it for it in self.wholes(function.name, line) if it[0] == "%"} - read
                        has_changed |= bool(new)
                        read |= new
        self.capped = capped(module, self)

    def is_low(self, function, name):
        """Whether a value has at most 32 bits, on a processor whose size_t has 32."""
        return self.ranges.found[function].get(name, 0) <= SIZE

    def bytes_loaded(self, function, line):
        """How many bytes a load takes, on a processor whose size_t has 32 bits."""
        return 4 if line["type"] == "i64" and self.is_size(function, line["made"]) else bytes_of(line["type"])

    def stores_size(self, function, line):
        """Whether nobody reads the high bits of the 64 that a line stores then."""
        return line["type"] == "i64" and self.live.wanted(function, line["place"], 8) >> 4 == 0

    def gives_size(self, function):
        return function.result == "i64" and self.is_size(function.name, Ranges.RESULT)

    def is_size(self, function, name):
        return (self.is_low(function, name) or (function, name) in self.capped
                or name != Ranges.RESULT and name not in self.read_whole[function])

    def wholes(self, function, line):
        """What a line reads of which more than the low bits count."""
        kind = line.kind
        if kind == "narrow" and bits(line["to"]) <= 32 or READS_LOW.get(kind) in line.words:
            return [it for word, it in line.words.items() if word in ("to", "source", "base") and kind != "narrow"]
        if kind == "compare" and line.number in self.counts:
            return []
        if kind == "call_only" and line["function"] == READER:
            return []
        if kind in ("call", "call_only"):
            called = self.functions.get(line["function"].strip('@"'))
            names = [name for _, name in called.parameters] if called else [None] * len(line.given)
            return [value for (_, value), name in zip(line.given, names) if not (name and self.is_size(called.name, name))]
        if kind == "store" and self.stores_size(function, line):
            return []
        if kind == "give" and self.is_size(function, Ranges.RESULT):
            return []
        if kind == "sum" and line["sum"] == "and" and any((constant("i64", line[it]) or SIZE + 1) <= SIZE for it in ("left", "right")):
            return []
        is_made_low = "made" in line.words and self.is_size(function, line["made"])
        if is_made_low and kind == "choose":
            return [line["choice"]]
        if is_made_low and (kind in ("phi", "same") or kind == "sum" and line["sum"] in BY_LOW_BITS):
            return []
        if is_made_low and kind == "sum" and line["sum"] == "shl" and line["right"][0] != "%":
            return []
        return line.names()
