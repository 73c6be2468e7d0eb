"""The statements for calls and for what comes next: jumps, with what they set for the values that depend on the way, and results."""
import re

from expressions import Expression, negated, number
from ranges import SIZE
from refusals import refuse
from text import READER, READER_IN_C, bits, constant


class Ends:
    def call(self, line):
        if line["function"] == READER:
            return self.emit(f"{READER_IN_C}({', '.join(self.as_size(*it) for it in line.given)});")
        name = line["function"].strip('@"')
        called = self.body.program.sizes.functions.get(name)
        given = ", ".join(self.handed(called, k, *it).text for k, it in enumerate(line.given))
        if name not in self.body.program.functions.named:
            return refuse(line.number, "a call of what is not in the module", line.written)
        made = f"{self.body.program.functions.named[name]}({given})"
        if line.kind == "call" and line["made"] in self.body.uses:
            gives_size = self.body.program.sizes.gives_size(called)
            return self.keep(line, line["type"], self.as_made(line, line["type"], Expression(made), gives_size))
        self.emit(f"{made};")

    call_only = call

    def as_size(self, type, value):
        """What the program's reader is handed: a place, or a number of bytes."""
        return (self.size(value) if type == "i64" else self.value(type, value)).text

    def handed(self, called, k, type, value):
        """What a call hands over as its parameter k."""
        sizes = self.body.program.sizes
        if not called or type != "i64" or not sizes.is_size(called.name, called.parameters[k][1]):
            return self.value(type, value)
        if (called.name, called.parameters[k][1]) in sizes.capped and not self.is_size(type, value):
            return Expression(f"capped_size({self.value(type, value).text})")
        return self.size(value)

    def give(self, line):
        made = (self.size(line["value"]) if self.body.result == "size" else self.value(line["type"], line["value"])).text
        has_sign = self.body.export is not None and self.body.export.result.startswith("int")
        self.emit(f"return signed{bits(line['type'])}({made});" if has_sign else f"return {made};")

    def give_nothing(self, line):
        self.emit("return;")

    def trap(self, line):
        self.emit("trap();")

    def never(self, line):
        if not self.statements or self.statements[-1] != "trap();":
            self.emit("never();")

    def phi(self, line):
        """A local, which whoever comes here has set, unless its value does not matter."""
        type = self.body.type_of(line["type"], line["made"])
        self.body.across[self.name_of(line["made"])] = (type, "poison" not in [value for value, _ in line.rows])

    def alive(self, line):
        """(stack.py reads it.)"""

    dead = alive

    def end(self, flow, around):
        """What comes after the block, as lines of flow.py, and whether a run comes to their end."""
        line = self.block.lines[-1]
        if line.kind == "jump":
            return flow.way(self, line["label"], around)
        if line.kind == "branch":
            return self.branch(line, flow, around)
        if line.kind == "switch":
            return self.switch(line, flow, around)
        return [], False

    def branch(self, line, flow, around):
        choice = self.value("i1", line["value"])
        if self.body.ways.end(line["yes"]) == self.body.ways.end(line["no"]):
            return flow.way(self, line["yes"], around)
        yes, comes_from_yes = flow.way(self, line["yes"], around)
        no, comes_from_no = flow.way(self, line["no"], around)
        if not yes or comes_from_yes and not comes_from_no or comes_from_yes == comes_from_no and no and len(no) < len(yes):
            choice, yes, no, comes_from_yes, comes_from_no = negated(choice), no, yes, comes_from_no, comes_from_yes
        if len(yes) == 1 and is_plain(yes[0][1]):
            lines = [(0, f"if ({choice.text}) {yes[0][1]}")]
            if yes[0][1] == "break;":
                flow.opposite[lines[0][1]] = negated(choice).text
        else:
            lines = [(0, f"if ({choice.text}) {{"), *deeper(yes), (0, "}")] if yes else []
        if no and comes_from_yes:
            lines += [(0, "else {"), *deeper(no), (0, "}")]
        else:
            lines += no
        return lines, comes_from_yes or comes_from_no

    def switch(self, line, flow, around):
        is_long = any(constant(line["type"], case) > SIZE for case, _ in line.cases)
        lines = [(0, f"switch ({(self.whole if is_long else self.value)(line['type'], line['value']).text}) {{")]
        inside, falls, cases = around._replace(breaks=around.next, ended=("switch", self.block.label)), False, {}
        for case, label in [*line.cases, (None, line["otherwise"])]:
            begin = "default:" if case is None else f"case {number(constant(line['type'], case)).text}:"
            cases.setdefault(self.body.ways.end(label), (label, []))[1].append(begin)
        for label, begins in cases.values():
            its, comes = flow.way(self, label, inside)
            its = its + [(0, "break;")] * comes
            falls |= comes
            lines += [(0, it) for it in begins[:-1]]
            if len(its) == 1 and is_plain(its[0][1]):
                lines.append((0, f"{begins[-1]} {its[0][1]}"))
            elif any(depth == 0 and isinstance(it, str) and is_declaration(it) for depth, it in its):
                lines += [(0, f"{begins[-1]} {{"), *deeper(its), (0, "}")]
            else:
                lines += [(0, begins[-1]), *deeper(its)]
        return lines + [(0, "}")], falls or inside.ended in flow.ended

    def set_phis(self, label):
        """What the way to a block sets: its phis, all at once."""
        moves = [(self.name_of(line["made"]), self.body.type_of(line["type"], line["made"]), self.like(line["type"], line["made"], value).text)
                 for line, value in self.body.ways.arriving(self.block.label, label) if value not in (line["made"], "poison")]
        set_before = [{name for name, _, _ in moves[:k]} for k in range(len(moves))]
        if any(before & set(re.findall(r"\w+", text)) for before, (_, _, text) in zip(set_before, moves)):
            temporary = [(f"{name}_next", type, text) for name, type, text in moves]
            self.body.across.update({name: (type, True) for name, type, _ in temporary})
            moves = temporary + [(name, type, f"{name}_next") for name, type, _ in moves]
        return [f"{name} = {text};" for name, _, text in moves]


def deeper(lines):
    return [(depth + 1, text) for depth, text in lines]


def is_plain(text):
    """Whether a line is a statement by itself."""
    return isinstance(text, str) and not text.startswith("if ") and not is_declaration(text)


def is_declaration(text):
    return bool(re.match(r"(uint[0-9]+_t|size_t|unsigned char|struct) ", text))
