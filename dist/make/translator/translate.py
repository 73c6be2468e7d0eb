#!/usr/bin/env python3
"""translate.py WIDE.ll HEADER.h.. > FILE.c: portable C11 of a module that widen.py made, as it is or as LLVM's optimiser leaves it.

A line that is not known, or an export that is not the header's, is refused: then nothing is written, and the status is 1."""
import os
import sys

import lines
from alignment import Alignments
from body import Body
from head import HELPERS, head
from header import Header
from module import Module
from names import Names
from nulls import without_null
from refusals import end_if_any, refuse
from sizes import Sizes
from sources import Sources, comment
from tables import Tables


class Program:
    """What all functions share: the names of functions and of tables."""

    def __init__(self, module, header):
        self.header = header
        header.leave_out({it.name for it in module.functions if it.is_export})
        self.functions = Names([*HELPERS, *header.exports])
        for function in module.functions:
            if function.is_export:
                self.check(function)
            else:
                self.functions.of(function.name)
        for name in {*header.exports} - {it.name for it in module.functions}:
            refuse(0, "the module has no such export", name)
        self.tables = Tables(module, Names())
        self.functions.taken.update(self.tables.named.values())

    def check(self, function):
        export = self.header.exports.get(function.name)
        if not export or not export.fits(function):
            refuse(function.number, "an export that the header does not have so", function.name)


def main():
    header = Header(*sys.argv[2:])
    module = Module(open(sys.argv[1], encoding="latin-1").read(), lines.OPTIMISED)
    program = Program(module, header)
    end_if_any()
    for function in module.functions:
        if function.is_export and header.forbids_null(function.name):
            without_null(function)
    program.alignments, program.sizes = Alignments(module, header), Sizes(module, header)
    bodies = [Body(it, program, header.exports.get(it.name) if it.is_export else None) for it in module.functions]
    sources = Sources(os.path.join(os.path.dirname(os.path.abspath(sys.argv[2])), "..", "crates"))
    texts = ["\n".join([comment(it.function.name, sources.of(it.function.name)), *it.write()]) for it in bodies]
    end_if_any()
    functions = "\n\n".join(texts)
    tables = "\n".join(program.tables.text(it) for it in program.tables.written)
    prototypes = "\n".join(body.head() + ";" for body in bodies if not body.export)
    sys.stdout.write("\n".join([head(header, prototypes + functions), tables, "", prototypes, "", functions, ""]))


if __name__ == "__main__":
    main()
