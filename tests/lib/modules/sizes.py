#!/usr/bin/env python3
"""sizes.py TRANSLATOR MODULE HEADER: names each value of the module that is called narrow and keeps 64 bits in C, and each that is called
wide and is a size_t. The last line is how many values are as they are called."""
import sys

sys.dont_write_bytecode = True
sys.path.insert(0, sys.argv[1])
import lines  # noqa: E402 (they lie in the folder that the first word names)
from header import Header  # noqa: E402
from module import Module  # noqa: E402
from sizes import Sizes  # noqa: E402

module, right = Module(open(sys.argv[2], encoding="latin-1").read(), lines.OPTIMISED), 0
sizes = Sizes(module, Header(sys.argv[3]))
for function in module.functions:
    for name in [line["made"] for block in function.blocks for line in block.lines if "made" in line.words]:
        if name.startswith(("%narrow.", "%wide.")):
            if sizes.is_size(function.name, name) == name.startswith("%narrow."):
                right += 1
            else:
                print(f"{function.name}: {name} is {'a size_t' if name.startswith('%wide.') else 'no size_t'}")
print(right)
