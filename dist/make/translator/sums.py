"""The statements for sums, comparisons, choices and pairs."""
from expressions import SUM, Expression, cast, compared, made_narrow, negated, number, size_of, sum_of, widened, without_sign
from ranges import SIZE
from refusals import refuse
from sizes import BY_LOW_BITS
from text import bits, constant, halves, width


class Sums:
    def as_made(self, line, type, it, is_size=False):
        """What a line makes, in the type of its name; `is_size`: whether it is a size_t already."""
        return size_of(it) if not is_size and self.body.type_of(type, line["made"]) == "size" else it

    def are_sizes(self, type, line):
        return all(self.is_size(type, line[it]) for it in ("left", "right"))

    def sum(self, line):
        type, kind, count = line["type"], line["sum"], constant(line["type"], line["right"])
        is_size = self.body.type_of(type, line["made"]) == "size" and (
            kind in BY_LOW_BITS or self.are_sizes(type, line) and (kind not in ("shl", "lshr") or count is not None and count < 32))
        read = (lambda it: self.size(it)) if is_size else (lambda it: self.whole(type, it))
        left, right = read(line["left"]), read(line["right"])
        if type == "i1" and kind == "xor" and line["right"] == "true":
            return self.set(line, type, negated(left))
        if constant(type, line["left"]) is not None:
            left = cast("size" if is_size else type, left)
        if kind == "add" and bits(type) > 16 and count is not None and (1 << bits(type)) - count <= 1 << 16:
            kind, right = "sub", number((1 << bits(type)) - count)
        self.set(line, type, self.as_made(line, type, sum_of(kind, type, left, right, count), is_size))

    def compare(self, line):
        type, order = line["type"], line["order"]
        is_beyond = self.is_beyond(type, line) and order[0] != "s"
        read = self.value if is_beyond or self.are_sizes(type, line) and order[0] != "s" else self.whole
        left, right = read(type, line["left"]), read(type, line["right"])
        if order[0] == "s":
            if bits(type) != width(type):
                refuse(line.number, "an order with a sign, of so many bits", line.written)
            left, right = without_sign(type, left, constant(type, line["left"])), without_sign(type, right, constant(type, line["right"]))
            order = "u" + order[1:]
        if is_beyond:
            left, right = (Expression(f"wide({it.text})") if self.body.type_of(type, line[word]) == "size" else it
                           for word, it in (("left", left), ("right", right)))
        self.set(line, "i1", compared(order, left, right))

    def is_beyond(self, type, line):
        """Whether a size_t is compared with what a size_t of 32 bits is never above. (A compiler may warn of that.)"""
        known = [constant(type, line[it]) for it in ("left", "right")]
        return type == "i64" and any(it is not None and it >= SIZE for it in known)

    def compare_places(self, line):
        self.set(line, "i1", compared(line["order"], self.value("ptr", line["left"]), self.value("ptr", line["right"])))

    def widen(self, line):
        it = self.value(line["type"], line["value"])
        is_size = self.body.type_of(line["to"], line["made"]) == "size"
        self.set(line, line["to"], cast("size", it) if is_size else widened(it, line["to"]))

    def narrow(self, line):
        self.set(line, line["to"], made_narrow(self.value(line["type"], line["value"]), line["to"]))

    def choose(self, line):
        type = line["type"]
        choice, left, right = self.value("i1", line["choice"]), *(self.like(type, line["made"], line[it]) for it in ("left", "right"))
        made = Expression(f"{choice.part()} ? {left.part()} : {right.part()}", SUM)
        self.set(line, type, made if type in ("ptr", "i1") else cast(self.body.type_of(type, line["made"]), made))

    def same(self, line):
        self.set(line, line["type"], self.like(line["type"], line["made"], line["value"]))

    def least(self, line):
        type, left, right = line["type"], self.value(line["type"], line["left"]), self.value(line["type"], line["right"])
        if bits(type) != width(type):
            refuse(line.number, "numbers of so many bits", line.written)
        are_sizes = line["least"] != "uadd.sat" and self.are_sizes(type, line)
        made = f"{line['least'].replace('.', '_')}{'_size' if are_sizes else bits(type)}({left.text}, {right.text})"
        self.set(line, type, self.as_made(line, type, Expression(made), are_sizes))

    def product(self, line):
        left, right = self.value("i64", line["left"]), self.value("i64", line["right"])
        self.keep(line, "{ i64, i1 }", Expression(f"product64({left.text}, {right.text})"))

    def half(self, line):
        it = self.value(line["type"], line["value"])
        type = halves(line["type"])[int(line["half"])]
        self.set(line, type, self.as_made(line, type, Expression(f"{it.head()}.{'ab'[int(line['half'])]}")))

    def put_half(self, line):
        pair, put = self.value(line["type"], line["value"]), self.value(line["of"], line["put"])
        self.keep(line, line["type"], pair)
        self.emit(f"{self.name_of(line['made'])}.{'ab'[int(line['half'])]} = {put.text};")
