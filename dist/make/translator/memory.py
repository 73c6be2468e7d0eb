"""The statements for memory: arrays, loads, stores, copies, and places."""
from expressions import CAST, ROW, SUM, Expression, access, byte_at, c_type, cast, moved
from refusals import refuse
from text import bits, bytes_of, constant

LARGEST = 1 << 31


class Memory:
    def local(self, line):
        if line["made"] not in self.body.types:
            self.array(line)

    def array(self, line):
        size = int(line["size"]) if line.kind == "array" else bytes_of(line["type"])
        if self.block is not self.body.ways.blocks[0]:
            refuse(line.number, "a local of a part of a function", line.written)
        self.body.arrays[line["made"]] = (max(size, 1), int(line["align"]))

    def load(self, line):
        type, place = line["type"], line["place"]
        if place in self.body.types:
            return self.keep(line, type, self.as_made(line, type, Expression(self.name_of(place))))
        at = self.value("ptr", place)
        if at.rank == ROW:
            return self.keep(line, type, cast(self.body.type_of(type, line["made"]), Expression(at.text)))
        if bits(type) == 8:
            return self.keep(line, type, Expression(byte_at(at)))
        if bits(type) < 8 or type == "ptr":
            return refuse(line.number, "a load of no whole bytes, or of a pointer", line.written)
        is_size = self.body.type_of(type, line["made"]) == "size"
        self.keep(line, type, Expression(f"load{access('size' if is_size else type, self.align_of(line))}({at.text})"))

    def store(self, line):
        type, place = line["type"], line["place"]
        is_size = type == "i64" and place not in self.body.types and self.body.program.sizes.stores_size(self.body.function.name, line)
        what = self.size(line["value"]) if is_size else self.value(type, line["value"])
        if place in self.body.types:
            return self.emit(f"{self.name_of(place)} = {what.text};")
        at = self.value("ptr", place)
        if bits(type) == 8:
            return self.emit(f"{byte_at(at)} = {what.text};")
        if bits(type) < 8 or type == "ptr":
            return refuse(line.number, "a store of no whole bytes, or of a pointer", line.written)
        self.emit(f"store{access('size' if is_size else type, self.align_of(line))}({at.text}, {what.text});")

    def align_of(self, line):
        """What the place of a load or a store is a multiple of, by the line itself or by what is known of its pointer."""
        return max(int(line["align"]), self.body.aligned(line["place"]))

    def move(self, line):
        to, source, count = self.value("ptr", line["to"]), self.value("ptr", line["source"]), self.count(line)
        if count != "0":
            self.emit(f"{'memcpy' if line.kind == 'copy' else 'memmove'}({to.text}, {source.text}, {count});")

    copy = move

    def fill(self, line):
        to, byte, count = self.value("ptr", line["to"]), self.value("i8", line["value"]), self.count(line)
        if count != "0":
            self.emit(f"memset({to.text}, {byte.text}, {count});")

    def count(self, line):
        """How many bytes are copied or filled."""
        if line["length"][0] == "%":
            return self.size(line["length"]).text
        count = self.value("i64", line["length"])
        if constant("i64", line["length"]) is None or constant("i64", line["length"]) >= LARGEST:
            refuse(line.number, "a copy of so much", line.written)
        return count.text

    def place(self, line):
        base, by = self.value("ptr", line["base"]), line["by"]
        if by[0] != "%":
            return self.set(line, "ptr", moved(base, int(by)))
        count = self.size(by)
        if self.body.export and line["base"] in self.body.parameter_names:
            # C may hand in NULL, which becomes another place here: C has no sums with NULL.
            return self.set(line, "ptr", Expression(f"(unsigned char *)((uintptr_t){base.part()} + (uintptr_t){count.part()})", CAST))
        self.set(line, "ptr", Expression(f"{base.part()} + {count.part()}", SUM))

    def row(self, line):
        if line["base"] in self.body.program.tables.rows:
            return self.set(line, "ptr", Expression(f"{self.body.program.tables.named[line['base']]}[{self.size(line['by']).text}]", ROW))
        base, by, size = self.value("ptr", line["base"]), self.size(line["by"]), bytes_of(line["type"])
        self.set(line, "ptr", Expression(f"{base.part()} + {size} * {by.part()}", SUM))

    def address(self, line):
        type = c_type(self.body.type_of("i64", line["made"]))
        self.set(line, "i64", Expression(f"({type})(uintptr_t){self.value('ptr', line['value']).part()}", CAST))

    to_number = address

    def to_place(self, line):
        self.set(line, "ptr", Expression(f"(unsigned char *)(uintptr_t){self.value('i64', line['value']).part()}", CAST))
