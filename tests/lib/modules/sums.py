#!/usr/bin/env python3
"""sums.py FOLDER: writes a module of the rows in sums.txt, its header dfu_sums.h, and a program over it that ends in 1 and names each row
with another result."""
import os
import sys

HERE = os.path.dirname(os.path.abspath(__file__))
HEAD = open(os.path.join(HERE, "head.ll"), encoding="utf-8").read()
LEAST = ("umin", "umax", "uadd.sat", "usub.sat")
ORDERS = ("eq", "ne", "ult", "ule", "ugt", "uge", "slt", "sle", "sgt", "sge")


def as_written(type, number):
    """A number as LLVM writes it: with a sign, from the highest bit on."""
    bits = int(type[1:])
    if bits == 1:
        return "true" if number else "false"
    return str(number - (1 << bits) if number >> (bits - 1) else number)


def function(name, operation, type, left, right):
    """An export that makes the sum of its two numbers, or of one of them and a constant."""
    wide = type == "i64"
    lines = [] if wide else [f"  %l = trunc i64 %a0 to {type}", f"  %r = trunc i64 %a1 to {type}"]
    left = left or ("%a0" if wide else "%l")
    right = right or ("%a1" if wide else "%r")
    if operation in LEAST:
        lines.append(f"  %s = call {type} @llvm.{operation}.{type}({type} {left}, {type} {right})")
    elif operation in ORDERS:
        lines.append(f"  %s = icmp {operation} {type} {left}, {right}")
    else:
        lines.append(f"  %s = {operation} {type} {left}, {right}")
    result = "i1" if operation in ORDERS else type
    if result != "i64":
        lines.append(f"  %o = zext {result} %s to i64")
    lines.append(f"  ret i64 %{'s' if result == 'i64' else 'o'}")
    return "\n".join([f"define i64 @{name}(i64 %a0, i64 %a1) #0 {{", "start:", *lines, "}", ""])


def main():
    folder, functions, prototypes, checks = sys.argv[1], [], [], []
    rows = [line.split() for line in open(os.path.join(HERE, "sums.txt"), encoding="utf-8") if not line.startswith("#")]
    for k, (operation, type, left, right, wanted) in enumerate(rows):
        a, b = as_written(type, int(left)), as_written(type, int(right) % (1 << int(type[1:])))
        for word, of_left, of_right in [("sum", None, None), ("left", a, None), ("right", None, b)]:
            name = f"dfu_{word}_{k}"
            functions.append(function(name, operation, type, of_left, of_right))
            prototypes.append(f"int64_t {name}(uint64_t left, uint64_t right);")
            right_number = int(right) % (1 << int(type[1:]))
            call = f"(uint64_t){name}({left}u, {right_number}u)"
            if wanted == "any":
                checks.append(f"    (void){call};")
            else:
                checks.append(f'    check("{operation} {type} {left} {right}, {word}", {call}, {wanted}u);')
    write = {"dfu_sums.ll": HEAD + "\n" + "\n".join(functions),
             "dfu_sums.h": "#include <stddef.h>\n#include <stdint.h>\n" + "\n".join(prototypes) + "\n",
             "sums.c": PROGRAM + "\n".join(checks) + "\n    return wrong != 0;\n}\n"}
    for name, text in write.items():
        with open(os.path.join(folder, name), "w", encoding="utf-8") as file:
            file.write(text)


PROGRAM = """#include <stdio.h>
#include "dfu_sums.h"
static int wrong;
static void check(const char *what, uint64_t found, uint64_t wanted) {
    if (found != wanted) {
        wrong = 1;
        printf("%s: wanted %llu, found %llu\\n", what, (unsigned long long)wanted, (unsigned long long)found);
    }
}
int main(void) {
"""
main()
