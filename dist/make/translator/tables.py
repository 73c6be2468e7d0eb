"""The module's tables in C. One that is only read row by row has rows of the smallest type that holds its numbers, and those that are the
same then are one."""
import re

from expressions import c_type
from text import TABLE, bits


class Tables:
    """`named` has the name in C of each table, `rows` the type of the rows of one that is only read row by row, and `written` the tables
    that C has."""

    def __init__(self, module, names):
        self.by_name = {it.name: it for it in module.tables}
        places = {name for function in module.functions for name in self.places(function)}
        self.rows = {it.name: smallest(it.rows) for it in module.tables if it.name not in places}
        self.named, self.written, like = {}, [], {}
        for it in module.tables:
            key = (self.rows[it.name], *it.rows) if it.name in self.rows else it.name
            if key not in like:
                like[key] = names.of(it.name)
                self.written.append(it)
            self.named[it.name] = like[key]

    def places(self, function):
        """The tables of which a function reads more or less than a row, or makes a place that not only the next line reads."""
        reads = {}
        for block in function.blocks:
            for k, line in enumerate(block.lines):
                for name in line.names():
                    reads.setdefault(name, []).append((block, k, line))
        for block in function.blocks:
            for k, line in enumerate(block.lines):
                for name in re.findall(TABLE, line.written):
                    if not (line.kind == "row" and self.is_row(line, block, k, reads.get(line["made"], []))):
                        yield name

    def is_row(self, line, block, k, reads):
        """Whether the place of a row is read once, by the next line of its block, as that row."""
        if len(reads) != 1 or reads[0][:2] != (block, k + 1):
            return False
        load = reads[0][2]
        return load.kind == "load" and self.by_name[line["base"]].type == line["type"] == load["type"]

    def text(self, table):
        """A table in C."""
        name, row = self.named[table.name], self.rows.get(table.name)
        rows = [f"{it}" if it < 10 else f"{it:#x}" for it in table.rows] or ["0"]
        written = ",\n    ".join(", ".join(rows[k:k + 20]) for k in range(0, len(rows), 20))
        align = f"_Alignas({table.align}) " * (row is None)
        return f"static {align}const {c_type(row or table.type)} {name}[{len(rows)}] = {{\n    {written}\n}};"


def smallest(rows):
    """The smallest type that holds each of these numbers."""
    return next(it for it in ("i8", "i16", "i32", "i64") if max(rows, default=0) < 1 << bits(it))
