"""The body of a function in C: its locals, and the statements of its blocks in the module's order.

Loads, stores and calls keep that order, one on a line. A sum that is read once, in its own block, is written where it is read; every
other value is a local."""
import stack
from blocks import Ways, reached
from ends import is_declaration
from expressions import c_type
from flow import Flow, Label
from idle import variables, without_idle
from names import Names


def declared(type, name):
    return c_type(type) + " " * (type != "ptr") + name


class Body:
    """What one function becomes; `program` has what all functions share, `export` is its prototype in the header, if it has one."""

    def __init__(self, function, program, export):
        self.function, self.program, self.export = function, program, export
        self.result = "size" if export is None and program.sizes.gives_size(function) else function.result
        blocks = reached(function)
        self.types = variables(blocks)
        self.uses = without_idle(blocks, self.types)
        self.ways = Ways(blocks)
        self.names = Names([*program.functions.taken, *(export.names if export else [])])
        self.parameter_names = [name for _, name in function.parameters]
        # Locals of more than one block; arrays; the labels that a goto names.
        self.across, self.arrays, self.wanted = {}, {}, set()
        self.read_in = {}
        for block in self.ways.blocks:
            for line in block.lines:
                if line.kind == "phi":
                    for value, label in line.rows:
                        self.read_in.setdefault(value, set()).add(label)
                else:
                    for name in line.names():
                        self.read_in.setdefault(name, set()).add(block.label)

    def write(self):
        """The function as lines of C."""
        for _, name in self.function.parameters:
            self.names.of(name)
        for name in self.types:
            self.names.of(name)
        lines = Flow(self).write()
        text = [*self.of_parameters(), *self.of_arrays(), *self.of_locals()]
        for k, (depth, it) in enumerate(lines):
            if not isinstance(it, Label):
                text.append("    " * (depth + 1) + it)
            elif it.label in self.wanted:
                follows = next((that for _, that in lines[k + 1:] if not isinstance(that, Label)), "}")
                text.append(f"{self.name_of_label(it.label)}:{';' * (follows == '}' or is_declaration(follows))}")
        return [f"{self.head()} {{", *text, "}"]

    def type_of(self, type, value):
        """The type of a value, and `size` for an i64 that is a size_t."""
        return "size" if type == "i64" and value[0] == "%" and self.program.sizes.is_size(self.function.name, value) else type

    def aligned(self, place):
        """What a place is a multiple of, as alignment.py finds it."""
        return self.program.alignments.of(self.function.name, "ptr", place)

    def name_of_label(self, label):
        return self.names.of(("label", label), label)

    def head(self):
        if self.export:
            return f"{self.export.result} {self.function.name}({', '.join(self.export.parameters) or 'void'})"
        them = ", ".join(declared(self.type_of(type, name), self.names.of(name)) for type, name in self.function.parameters) or "void"
        result = self.result
        name = self.program.functions.named[self.function.name]
        return f"static {'void ' + name if result == 'void' else declared(result, name)}({them})"

    def of_parameters(self):
        """The parameters of an export under the names of the module; and those that nobody reads."""
        if not self.export:
            return [f"    (void){self.names.of(name)};" for _, name in self.function.parameters if name not in self.uses]
        lines = []
        for (type, name), written in zip(self.function.parameters, self.export.names):
            if name not in self.uses:
                lines.append(f"    (void){written};")
            else:
                type = self.type_of(type, name)
                cast = {"ptr": "(unsigned char *)(uintptr_t)", "size": "(size_t)"}.get(type, "")
                lines.append(f"    {declared(type, self.names.of(name))} = {cast}{written};")
        return lines

    def of_arrays(self):
        lines, places, function = [], self.program.sizes.ranges.cells.places, self.function.name
        known = [name for name in self.arrays if (function, name) not in places.lost]
        sizes = {name: size for name, (size, _) in self.arrays.items()}
        def arrays_of(value):
            return {it[1] for it, _ in places.of(function, value) if it[0] == function}

        for group in stack.shared(self.ways, sizes, known, arrays_of):
            align = max(self.arrays[name][1] for name in group)
            first = self.names.of(group[0])
            lines.append(f"    _Alignas({align}) unsigned char {first}[{self.arrays[group[0]][0]}];")
            lines += [f"    unsigned char *const {self.names.of(name)} = {first};" for name in group[1:]]
        return lines

    def of_locals(self):
        """The locals that more than one block has. Those that a way may leave unset begin with 0."""
        lines = [f"    {declared(type, self.names.of(name))} = 0;" for name, type in self.types.items() if name in self.uses]
        by_type = {}
        for name, (type, is_set) in self.across.items():
            if is_set:
                by_type.setdefault(type, []).append("*" * (type == "ptr") + name)
            else:
                lines.append(f"    {declared(type, name)}{' = 0' * (type[0] != '{')};")
        for type, them in by_type.items():
            for k in range(0, len(them), 12):
                lines.append(f"    {c_type(type).rstrip(' *')} {', '.join(them[k:k + 12])};")
        return lines
