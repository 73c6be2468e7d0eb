"""Where the blocks of a function stand in C: which is written where a branch leads to it, and which after its branch, in which loop."""


class Shape:
    """Over the blocks that are kept, by their labels. `order` has each one's place in an order in which all but the way back in a loop lead
    on; `loops` has for the first block of each loop the blocks in it; `after` has what is written behind a block's branch, and `behind` what is
    written behind the loop that a block begins. Any other block is written where the only branch to it leads."""

    def __init__(self, ways, kept):
        self.first = kept[0].label
        self.goes_to = {block.label: self.targets(ways, block) for block in kept}
        self.order = {label: k for k, label in enumerate(self.ordered())}
        self.come_from = {label: [] for label in self.order}
        for label in self.order:
            for to in self.goes_to[label]:
                self.come_from[to].append(label)
        self.above = self.nearest_above()
        self.loops = {}
        for label in self.order:
            self.add_loops(label)
        self.after, self.behind = {it: [] for it in self.order}, {it: [] for it in self.order}
        for label in self.order:
            if label != self.first:
                self.stand(label)

    def targets(self, ways, block):
        """The blocks that a block leads to, each once; none that is written as a word of C."""
        labels = [ways.end(it) for it in block.lines[-1].goes_to()]
        return [it for it in dict.fromkeys(labels) if not ways.shortly(it)]

    def ordered(self):
        """The labels, each before those that it leads to, but for ways back."""
        done, left, seen = [], [(self.first, iter(self.goes_to[self.first][::-1]))], {self.first}
        while left:
            label, rest = left[-1]
            to = next((it for it in rest if it not in seen), None)
            if to is None:
                done.append(label)
                left.pop()
            else:
                seen.add(to)
                left.append((to, iter(self.goes_to[to][::-1])))
        return done[::-1]

    def nearest_above(self):
        """For each block the last one that each way to it goes through."""
        above = {self.first: self.first}
        has_changed = True
        while has_changed:
            has_changed = False
            for label in list(self.order)[1:]:
                both = None
                for it in self.come_from[label]:
                    if it in above:
                        both = it if both is None else self.common(above, both, it)
                has_changed |= above.get(label) != both
                above[label] = both
        return above

    def common(self, above, one, other):
        while one != other:
            if self.order[one] > self.order[other]:
                one = above[one]
            else:
                other = above[other]
        return one

    def is_above(self, label, other):
        while self.order[other] > self.order[label]:
            other = self.above[other]
        return label == other

    def add_loops(self, label):
        """The loop that a block begins, if a block that it is above leads back to it."""
        backs = [it for it in self.come_from[label] if self.is_above(label, it)]
        if not backs:
            return
        found, left = {label}, backs
        while left:
            it = left.pop()
            if it not in found:
                found.add(it)
                left += self.come_from[it]
        self.loops[label] = found

    def stand(self, label):
        """Where a block that is not the first one stands: behind the loops that it is not part of; or after the branch of the block above it,
        if more than one way leads to it."""
        above, ends_loop = self.above[label], None
        at = above
        while True:
            if at in self.loops and above in self.loops[at] and label not in self.loops[at]:
                ends_loop = at
            if at == self.first:
                break
            at = self.above[at]
        forward = [it for it in self.come_from[label] if self.order[it] < self.order[label]]
        if ends_loop is not None:
            self.behind[ends_loop].append(label)
        elif len(forward) != 1 or forward != self.come_from[label] and label not in self.loops:
            self.after[above].append(label)

    def is_placed(self, label):
        """Whether a block stands where the only branch to it leads."""
        return not any(label in its for its in (self.after[self.above[label]], *(self.behind[it] for it in self.loops)))
