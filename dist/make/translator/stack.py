"""Which arrays of a function share memory: those of which no place in the function has two in use.

LLVM marks where some arrays are in use. Besides, one is in use from the first line that may write or read it to the last one, over all
ways: what stands there is not read before, and not after. Of an array whose place is kept as a number, which lines that are is not known,
so only its marks count."""
# Lines that make a pointer, and neither read nor write through it.
MAKES_PLACE = ("place", "row", "phi", "choose", "same", "alive", "dead")


class Marks:
    """For each marked array: the others that are in use at some place where it is, by LLVM's marks."""

    def __init__(self, ways):
        marks = {block.label: [line for line in block.lines if line.kind in ("alive", "dead")] for block in ways.blocks}
        self.beside = {line["of"]: set() for its in marks.values() for line in its}
        self.at_start = {label: set() for label in marks}
        changed = True
        while changed:
            changed = False
            for block in ways.blocks:
                at_end = self.walk(self.at_start[block.label], marks[block.label])
                for label in block.lines[-1].goes_to():
                    changed |= not at_end <= self.at_start[label]
                    self.at_start[label] |= at_end

    def walk(self, at_start, marks):
        """What is in use at a block's end. Whatever is in use together on the way is noted."""
        now = set(at_start)
        self.note(now)
        for line in marks:
            if line.kind == "alive":
                now.add(line["of"])
                self.note(now)
            else:
                now.discard(line["of"])
        return now

    def note(self, now):
        for name in now:
            self.beside[name] |= now


class Touches:
    """For each array whose places are all known: the others that are in use at some line where it is, by the lines that may write or read
    them. `arrays_of(value)`: the arrays that a pointer may lead to."""

    def __init__(self, ways, names, arrays_of):
        self.ways, self.beside = ways, {name: set() for name in names}
        self.of_line = {line.number: self.touched(line, arrays_of) for block in ways.blocks for line in block.lines}
        of_block = {block.label: set().union(*(self.of_line[line.number] for line in block.lines)) for block in ways.blocks}
        goes_to = {block.label: block.lines[-1].goes_to() for block in ways.blocks}
        comes_from = {label: [it for it in goes_to if label in goes_to[it]] for label in goes_to}
        before, after = spread(of_block, comes_from), spread(of_block, goes_to)
        for block in ways.blocks:
            self.walk(block, before[block.label], after[block.label])

    def touched(self, line, arrays_of):
        if line.kind in MAKES_PLACE:
            return set()
        return {it for value in line.names() for it in arrays_of(value)} & {*self.beside}

    def walk(self, block, before, after):
        """Notes what is in use at each line of a block: what a line up to it touches, and one from it on."""
        rest = [set(after)]
        for line in reversed(block.lines):
            rest.append(rest[-1] | self.of_line[line.number])
        seen = set(before)
        for line, left in zip(block.lines, rest[:0:-1]):
            seen |= self.of_line[line.number]
            now = seen & left
            for name in now:
                self.beside[name] |= now


def spread(of_block, ways):
    """For each block what any block has from which such a way leads to it."""
    found = {label: set() for label in of_block}
    has_changed = True
    while has_changed:
        has_changed = False
        for label in found:
            now = set().union(*(of_block[it] | found[it] for it in ways[label]))
            has_changed |= now != found[label]
            found[label] = now
    return found


def shared(ways, sizes, known, arrays_of):
    """The arrays in groups, each of which is one in C, the largest first; `sizes` has the bytes of each, and `known` are those of which every
    line that touches them is known."""
    marks, touches, groups = Marks(ways).beside, Touches(ways, known, arrays_of).beside, []

    def may_share(name, other):
        return any(name in its and other in its and name not in its[other] for its in (marks, touches))

    for name in sorted(sizes, key=lambda it: -sizes[it]):
        for group in groups:
            if all(may_share(name, it) for it in group):
                group.append(name)
                break
        else:
            groups.append([name])
    return groups
