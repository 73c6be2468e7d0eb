"""The statements of a block: what each kind of line becomes."""
from ends import Ends
from expressions import CAST, Expression, c_type, cast, number, size_of
from memory import Memory
from ranges import SIZE
from refusals import refuse
from sums import Sums
from text import constant


class Statements(Memory, Sums, Ends):
    """Writes the statements of one block. There is a function for each kind of line, and `end` for what comes next."""

    def __init__(self, body, block):
        self.body, self.block = body, block
        self.statements, self.waiting = [], {}
        self.name_of = body.names.of

    def write(self):
        for line in self.block.lines:
            if line.kind not in ("jump", "branch", "switch"):
                getattr(self, line.kind)(line)
        return self.statements

    def emit(self, text):
        self.statements.append(text)

    def value(self, type, written):
        """A value as an expression of C. A sum that waits for its one reader is taken here."""
        if written in self.waiting:
            return self.waiting.pop(written)
        if written[0] == "%":
            return Expression(self.name_of(written))
        if type[0] == "{":
            if written in ("poison", "zeroinitializer"):
                return Expression(f"({c_type(type)}){{ 0, 0 }}", CAST)
            them = [self.value(*it.split(" ", 1)).text for it in written[2:-2].split(", ")]
            return Expression(f"({c_type(type)}){{ {', '.join(them)} }}", CAST)
        if written in ("null", "poison") and type == "ptr":
            return Expression("NULL")
        if written[0] == "@":
            return Expression(f"PLACE({self.body.program.tables.named[written]})")
        if written.startswith("ptrtoint "):
            return Expression(f"(uint64_t)(uintptr_t){self.body.program.tables.named[written.split()[2]]}", CAST)
        return number(constant(type, written))

    def is_size(self, type, written):
        """Whether a value is a size_t, or a number that is one on each processor."""
        known = constant(type, written)
        return type == "i64" and (self.body.type_of(type, written) == "size" if written[0] == "%" else known is not None and known <= SIZE)

    def size(self, written):
        """A value of 64 bits as a size_t."""
        it = self.value("i64", written)
        return it if self.is_size("i64", written) else size_of(it)

    def whole(self, type, written):
        """A value in the type that has all its bits."""
        it = self.value(type, written)
        return cast(type, it) if self.body.type_of(type, written) == "size" else it

    def like(self, type, name, written):
        """A value in the type of a name."""
        return self.size(written) if self.body.type_of(type, name) == "size" else self.value(type, written)

    def set(self, line, type, made):
        """A value that reads no memory: it waits for its reader, if there is one and it is in this block."""
        name = line["made"]
        if self.body.uses[name] == 1 and self.body.read_in[name] == {self.block.label}:
            self.waiting[name] = made
        else:
            self.keep(line, type, made)

    def keep(self, line, type, made):
        """A local of its own."""
        name = line["made"]
        type = self.body.type_of(type, name)
        is_here = self.body.read_in[name] == {self.block.label}
        if not is_here:
            self.body.across[self.name_of(name)] = (type, True)
        declared = c_type(type) + " " * (type != "ptr") if is_here else ""
        self.emit(f"{declared}{self.name_of(name)} = {made.text};")
