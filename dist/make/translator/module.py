"""Reads the text of a module: its tables, and its functions with their blocks. What is not known is refused."""
import re

import lines
import text
from check import check
from refusals import refuse

DATALAYOUT = "e-m:e-p270:32:32-p271:32:32-p272:64:64-i8:8:32-i16:16:32-i64:64-i128:128-n32:64-S128-Fn32"
# Attributes of a function that don't change what it does: hints, and promises that the C need not make.
ATTRIBUTE = (r'minsize|optsize|inlinehint|alwaysinline|noinline|cold|mustprogress|willreturn|noreturn|nounwind|nofree|norecurse|nosync'
             r'|nocallback|nocreateundeforpoison|speculatable|memory\([a-z0-9_:, ]+\)'
             r'|"(?:frame-pointer|probe-stack|stack-probe-size|target-cpu)"="[^"]*"')
# What may stand outside of functions, besides the tables: of AArch64 with the low byte first, and what it declares of LLVM's own.
OUTSIDE = [re.compile(it) for it in (
    r"", r";.*", r'source_filename = "rattle"', r"!llvm\.ident = !\{!0\}", r'![0-9]+ = !\{(!"rattle logic=[0-9a-f]+"|i8 0, i8 [0-9]+)?\}',
    r'target triple = "aarch64-unknown-linux-gnu"', f'target datalayout = "{re.escape(DATALAYOUT)}"',
    rf'attributes #[0-9]+ = \{{(?: (?:{ATTRIBUTE}))+ \}}',
    r"declare void @llvm\.(memset\.p0|memmove\.p0\.p0|memcpy\.p0\.p0)\.i64\([^@]*\) #[0-9]+", r"declare void @llvm\.trap\(\) #[0-9]+",
    rf"declare void {text.READER}\(ptr, ptr, i64\)(?: local_unnamed_addr)?(?: #[0-9]+)?",
    r"declare void @llvm\.lifetime\.(start|end)\.p0\([^@]*\) #[0-9]+",
    r"declare \{ i64, i1 \} @llvm\.umul\.with\.overflow\.i64\(i64, i64\) #[0-9]+",
    r"declare i[0-9]+ @llvm\.(umin|umax|uadd\.sat|usub\.sat)\.i[0-9]+\(i[0-9]+, i[0-9]+\) #[0-9]+")]
TABLE = re.compile(rf'({text.TABLE}) = private unnamed_addr constant \[([0-9]+) x (i8|i16|i32|i64)\] '
                   r'(?:c"([^"]*)"|(zeroinitializer)|\[([^]]*)\]), align ([0-9]+)')
PARAMETERS = rf"\(((?:{text.PARAMETER}(?:, {text.PARAMETER})*)?)\) \{{"
INSIDE = re.compile(rf"define internal (void|{text.TYPE}) ({text.FUNCTION}){PARAMETERS}")
EXPORT = re.compile(rf"define (i32|i64) @(dfu(?:se)?_[a-z0-9_]+){PARAMETERS}")
BLOCK = re.compile(rf"({text.LABEL}):(?: *; (?:preds = .*|No predecessors!))?")


class Table:
    """A table of constants: its name, the type of a row, the rows as numbers, and what its place is a multiple of."""

    def __init__(self, name, count, type, letters, zeros, rows, align):
        self.name, self.type, self.align = name, type, int(align)
        if letters is not None:
            self.rows = [int(it[1:], 16) if len(it) == 3 else ord(it[-1]) for it in re.findall(r"\\[0-9A-F]{2}|\\\\|[^\\]", letters)]
        else:
            self.rows = [0] * int(count) if zeros else [text.constant(type, it) for it in re.findall(rf"{type} (-?[0-9]+)", rows)]
        self.is_whole = len(self.rows) == int(count)


class Block:
    """A label, its line in the text, and the lines after it."""

    def __init__(self, number, label):
        self.number, self.label, self.lines = number, label, []


class Function:
    """A function: the line it begins at, its name, what it takes and gives, and its blocks, the first one first."""

    def __init__(self, number, name, result, parameters, is_export):
        self.number, self.name, self.result, self.is_export, self.blocks = number, name.strip('@"'), result, is_export, []
        self.parameters = re.findall(rf"({text.TYPE}) (%a[0-9]+)", parameters)

    def lines_of(self, label):
        return [line for block in self.blocks if block.label == label for line in block.lines]


class Module:
    """The text of a module, read with the kinds of lines that it may have."""

    def __init__(self, written, kinds):
        self.tables, self.functions, self.kinds = [], [], kinds
        inside, is_inside = None, False
        for number, line in joined(written):
            if line.startswith("define "):
                inside, is_inside = self.begin(number, line), True
            elif line == "}" and is_inside:
                if inside:
                    check(inside)
                is_inside = False
            elif is_inside and inside and not inside.blocks and not BLOCK.fullmatch(line):
                refuse(number, "a function that begins without a label", line)
                inside = None
            elif is_inside:
                if inside:
                    self.add(inside, number, line)
            elif line.startswith("@"):
                self.table(number, line)
            elif not any(it.fullmatch(line) for it in OUTSIDE):
                refuse(number, "a line that the translator does not know", line)
        if is_inside:
            refuse(number, "the text ends within a function")

    def begin(self, number, line):
        plain = text.plainly(line)
        found = INSIDE.fullmatch(plain) or EXPORT.fullmatch(plain)
        if not found:
            refuse(number, "a function that the translator does not know", line)
            return None
        result, name, parameters = found.groups()
        self.functions.append(Function(number, name, result, parameters, name[0] != "@"))
        return self.functions[-1]

    def add(self, function, number, line):
        found = BLOCK.fullmatch(line)
        if found:
            function.blocks.append(Block(number, "%" + found[1]))
        elif line:
            read = lines.read_line(number, line, self.kinds)
            if read:
                function.blocks[-1].lines.append(read)
            else:
                refuse(number, "a line that the translator does not know", line)

    def table(self, number, line):
        found = TABLE.fullmatch(line)
        if not found:
            return refuse(number, "a global that is no table of constants", line)
        self.tables.append(Table(*found.groups()))
        if not self.tables[-1].is_whole:
            refuse(number, "a table of another length than it says", line)


def joined(written):
    """The lines with their numbers; a switch, which LLVM writes on several, is one."""
    switch = None
    for number, line in enumerate(written.split("\n"), 1):
        if switch:
            switch = (switch[0], switch[1] + " " + line.strip())
            if line == "  ]":
                yield switch
                switch = None
        elif re.fullmatch(r"  switch .* \[", line):
            switch = (number, line)
        else:
            yield number, line
    if switch:
        yield switch
