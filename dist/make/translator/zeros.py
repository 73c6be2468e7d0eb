"""Which zeros that a function fills its arrays with may be read.

Each byte of an array, or of a place that the function is handed, may hold what came from an origin: a zero of a fill, or what was at a
parameter's place when the function began. A copy moves that, and any other write ends it. A byte that is read, or that comes to where it
is not followed, needs its origin: a fill is kept then, and a parameter's byte is read in each call of the function.

The first byte of an object tells the cases of a type apart, as of a result that is an error. So what a byte may hold is known for each
number that the first byte holds, where that was written as a number. A branch on the first byte then goes on with the cases that it is for
(tags.py)."""
from blocks import reached
from pointers import ELSEWHERE, Pointers
from tags import Tags, number_of
from text import bits, bytes_of

ALL = -1
# The origin of an object's first byte itself, which stands in a state for each number that this byte may be.
TAG = "tag"
# Bytes that move further from their origin are not followed.
FAR = 1024


def first(count):
    """A mask of the first `count` bytes, one bit for each byte; of all bytes, if the count is None."""
    return ALL if count is None else (1 << count) - 1


def shifted(bytes, by):
    return bytes << by if by >= 0 else bytes >> -by


def join(state, other):
    """Adds to a state what another one may be; whether it was not there."""
    has_changed = False
    for key, bytes in other.items():
        if bytes | state.get(key, 0) != state.get(key, 0):
            state[key] = bytes | state.get(key, 0)
            has_changed = True
    return has_changed


class Function:
    """A function, walked through along each way. A state has the bytes for (object, origin, shift, tag): byte b of the object may be byte
    b - shift of the origin, which is a fill by the number of its line, or a parameter by its name; if the object's first byte is the tag, or
    whatever it is, if the tag is None.

    fills: the fills of its own arrays with zeros. zeros_read: those of which a zero is read, also of other functions. For its callers:
    keeps, the parameters of which it keeps a pointer; reads, the bytes that it reads of each parameter's; puts, the origins of what it
    ever puts there; leaves, its state at the end."""

    def __init__(self, function, known_of):
        self.function, self.blocks = function, reached(function)
        lines = [line for block in self.blocks for line in block.lines]
        self.parameters = [name for _, name in function.parameters]
        self.called = {line.number: known_of(line["function"].strip('@"')) for line in lines if line.kind in ("call", "call_only")}
        self.pointers = Pointers(function, lines)
        self.keeps = self.pointers.kept(lines, self.kept_by_call)
        self.not_followed = {ELSEWHERE, *self.keeps, *(self.parameters if function.is_export else [])}
        self.only_moved = only_moved(lines)
        self.first_bytes = {line["made"] for line in lines if line.kind == "load" and {by for _, by in self.pointers.of(line["place"])} == {0}}
        self.loaded = {line["made"] for line in lines if line.kind == "load" and ", !" not in line.written} - self.only_moved
        self.fills, self.handed, self.zeros_read, self.reads, self.puts, self.leaves = set(), set(), set(), {}, {}, {}
        self.walk()

    def kept_by_call(self, line):
        """The values of a call of which the function that is called keeps a copy; all, if that is not known."""
        known = self.called[line.number]
        return {value for k, (_, value) in enumerate(line.given) if known is None or known.parameters[k] in known.keeps}

    def walk(self):
        by_label, label = {block.label: block for block in self.blocks}, self.blocks[0].label
        at_start = {label: {(it, it, 0, None): ALL for it in self.pointers.parameters if it not in self.not_followed}}
        at_start[label].update({(it, TAG, 0, None): 1 for it in (*self.pointers.sizes, *self.pointers.parameters)})
        left = [label]
        while left:
            block = by_label[left.pop(0)]
            state, self.tags = dict(at_start[block.label]), Tags(self.pointers)
            for line in block.lines:
                self.use(state, line.names() if line.kind != "phi" else ())
                self.tags.follow(line)
                if line.kind in STEPS:
                    STEPS[line.kind](self, state, line)
            if line.kind in ("give", "give_nothing"):
                join(self.leaves, {key: bytes for key, bytes in state.items() if key[0] in self.parameters})
            for label in {*line.goes_to()}:
                is_new, left_there = label not in at_start, self.tags.left(state, block.lines[-1], label)
                self.use(left_there, [value for line in by_label[label].lines if line.kind == "phi" for value, of in line.rows
                                      if of == block.label])
                if join(at_start.setdefault(label, {}), left_there) or is_new:
                    left.append(label)

    def load(self, state, line):
        size, places, made = bytes_of(line["type"]), self.pointers.of(line["place"]), line["made"]
        if made not in self.loaded | self.only_moved or made in self.loaded and len(places) > 1:
            self.need(self.taken(state, places, size))
        elif len(places) > 1:
            self.put(state, {(made, 0)}, size, [(*it[:3], None) for it in self.taken(state, places, size)])
        else:
            # The number is read where it is used. Until then its tag is that of the object that it was loaded from.
            for tag in {key[3] for key in state if key[0] == next(iter(places))[0]}:
                those = self.taken({key: bytes for key, bytes in state.items() if key[3] == tag}, places, size)
                self.add_all(state, made, 0, [(*it[:3], tag) for it in those])

    def use(self, state, names):
        """Numbers that were loaded are used."""
        for name in self.loaded.intersection(names):
            self.need(self.taken(state, {(name, 0)}, None))

    def store(self, state, line):
        size = bytes_of(line["type"])
        number = number_of(line["type"], line["value"])
        if number is None:
            found = self.taken(state, {(line["value"], 0)}, size)
            self.put(state, self.pointers.of(line["place"]), size, [(*it[:3], it[3] if line["value"] in self.first_bytes else None)
                                                                    for it in found])
        else:
            self.put_number(state, line, self.pointers.of(line["place"]), size, number)

    def move(self, state, line):
        size = length(line)
        self.put(state, self.pointers.of(line["to"]), size, self.taken(state, self.pointers.of(line["source"]), size))

    def fill(self, state, line):
        self.put_number(state, line, self.pointers.of(line["to"]), length(line), number_of("i8", line["value"]))

    def put_number(self, state, line, places, size, number):
        """A number, whose first byte this is, comes to a place. It is an origin, if the place is known."""
        found, is_own = [], all(it in self.pointers.sizes for it, _ in places)
        is_known = size is not None and number is not None and len(places) == 1 and all(by is not None for _, by in places)
        if is_known and not (is_own and line.kind == "store"):
            found = [(line.number, 0, first(size), number)]
            (self.fills if is_own else self.handed).add(line.number)
        self.put(state, places, size, found, number)

    def call(self, state, line):
        """What the function that is called reads, and then what it leaves. (If that is not known, its places are not followed.)"""
        known = self.called[line.number]
        if known is None:
            return
        places = {name: self.pointers.of(value) for name, (type, value) in zip(known.parameters, line.given) if type == "ptr"}
        handed = [it for them in places.values() for it, _ in them]
        held = {name: self.taken(state, them, None) for name, them in places.items()}
        for name, bytes in known.reads.items():
            self.need([(origin, shift, its & bytes, None) for origin, shift, its, _ in held[name]])
        for name, them in places.items():
            if any(it in self.not_followed or handed.count(it) > 1 for it, _ in them):
                for origin in known.puts.get(name, ()):
                    self.need([(origin, 0, ALL, None)] if isinstance(origin, int) else held[origin])
            self.leave(state, them, *known.left_as_it_was(name))
            for it, by in them:
                self.add_all(state, it, by, known.left_at(name, held))

    def left_as_it_was(self, parameter):
        """By the first byte that is left at a parameter's place, the bytes that may be as they were; and which numbers that byte may be."""
        return ({tag: bytes for (it, origin, shift, tag), bytes in self.leaves.items() if (it, origin, shift) == (parameter, parameter, 0)},
                {tag for it, origin, _, tag in self.leaves if (it, origin) == (parameter, TAG)})

    def leave(self, state, places, left, tags):
        """What a call leaves of what was at a place."""
        is_known = len(places) == 1 and all(by is not None for _, by in places)
        for it, by in places:
            for key in [key for key in state if key[0] == it]:
                bytes = state.pop(key)
                if key[1] == TAG:
                    state.update({(it, TAG, 0, tag): 1 for tag in (tags if is_known and by == 0 else {None})})
                    continue
                for tag, its in left.items() if is_known else {None: ALL}.items():
                    now = (*key[:3], tag if by == 0 else None)
                    kept = bytes & (shifted(its, by or 0) | first(by or 0))
                    if kept:
                        state[now] = state.get(now, 0) | kept

    def left_at(self, parameter, held):
        """For a caller, what comes to a parameter's place. `held` is what the places of the parameters held before."""
        for (it, origin, shift, tag), bytes in self.leaves.items():
            if it == parameter and isinstance(origin, int):
                yield origin, 0, bytes, tag
            elif it == parameter and origin != TAG and (origin, shift) != (parameter, 0):
                for from_origin, before, its, _ in held[origin]:
                    yield from_origin, None if before is None else before + shift, shifted(its, shift) & bytes, tag

    def taken(self, state, places, size):
        """The contents of `size` bytes from a place on that may be any of these places: origins with their shifts and bytes, counted from
        the place, and with the tag, if the place is the object's first byte. The shift is None if it is not known."""
        found = []
        for it, by in places:
            for (of, origin, shift, tag), bytes in state.items():
                if of != it or origin == TAG:
                    continue
                if by is None:
                    found.append((origin, None, ALL, None))
                elif shifted(bytes, -by) & first(size):
                    found.append((origin, shift - by, shifted(bytes, -by) & first(size), tag if by == 0 else None))
        return found

    def put(self, state, places, size, found, number=None):
        """These bytes come to a place, or to one of several. So many bytes of a place that is known lose what they held. `number` is the
        first of the bytes that come, if that is known."""
        for it, by in places:
            is_known = len(places) == 1 and by is not None
            if is_known and size is not None:
                self.forget(state, it, shifted(first(size), by))
            if not by and size != 0:
                self.tag(state, it, number if is_known and size is not None else None)
            self.add_all(state, it, by, found)

    def tag(self, state, it, number):
        """An object's first byte is this number from now on, or any, if it is None."""
        for key in [key for key in state if key[0] == it and key[3] != number]:
            now = (*key[:3], number)
            state[now] = state.get(now, 0) | state.pop(key)

    def add_all(self, state, it, by, found):
        """Adds what comes to a place. Behind the first byte, it is there for each number that this byte may be."""
        tags = {key[3] for key in state if key[:2] == (it, TAG)} if by else {None}
        for origin, shift, bytes, tag in found:
            for now in ({tag} if by == 0 else tags or {None}) if bytes else ():
                self.add(state, it, origin, None if by is None or shift is None else shift + by, shifted(bytes, by or 0), now)

    def add(self, state, it, origin, shift, bytes, tag):
        if it in self.parameters:
            self.puts.setdefault(it, set()).add(origin)
        is_lost = not isinstance(origin, int) and (shift is None or abs(shift) > FAR)
        if it in self.not_followed or is_lost:
            self.need([(origin, shift, bytes, None)])
        else:
            key = (it, origin, 0 if isinstance(origin, int) else shift, tag)
            state[key] = state.get(key, 0) | (ALL if shift is None else bytes)

    def forget(self, state, it, bytes):
        """Bytes of an object that no longer hold what they held."""
        for key in [key for key in state if key[0] == it and key[1] != TAG]:
            state[key] &= ~bytes
            if not state[key]:
                del state[key]

    def need(self, found):
        """These bytes are read."""
        for origin, shift, bytes, _ in found:
            if bytes and isinstance(origin, int):
                self.zeros_read.add(origin)
            elif bytes:
                self.reads[origin] = self.reads.get(origin, 0) | (ALL if shift is None else shifted(bytes, -shift))


STEPS = {"load": Function.load, "store": Function.store, "move": Function.move, "copy": Function.move, "fill": Function.fill,
         "call": Function.call, "call_only": Function.call}


def length(line):
    """How many bytes are copied or filled; None if a value says so."""
    return int(line["length"]) if line["length"].isdigit() else None


def only_moved(lines):
    """The loads whose number is only stored again, as it is, and of which nothing is promised."""
    found = {line["made"] for line in lines
             if line.kind == "load" and ", !" not in line.written and bits(line["type"]) == 8 * bytes_of(line["type"])}
    for line in lines:
        found -= {it for it in line.names() if not (line.kind == "store" and line["value"] == it and line["place"] != it)}
    return found
