#!/usr/bin/env python3
"""retarget.py MODULE.ll > WASM.ll: a module of the kit for AArch64 as one of WebAssembly with addresses of 64 bits. Both store the low byte
first, and numbers and pointers have the same sizes and places. Each export gets the name under which the page finds it. heap.py comes
before this: what is left calls nothing but LLVM's own."""
import re
import sys

TARGET = ('target datalayout = "e-m:e-p:64:64-p10:8:8-p20:8:8-i64:64-i128:128-n32:64-S128-ni:1:10:20"\n'
          'target triple = "wasm64-unknown-unknown"')
CHANGES = (
    (r'^target datalayout = "e-m:e-p270:32:32-p271:32:32-p272:64:64-i8:8:32-i16:16:32-i64:64-i128:128-n32:64-S128-Fn32"\n'
     r'target triple = "aarch64-unknown-linux-gnu"$', TARGET),
    (r'^(define (?!internal)[^@\n]*@(dfu\w+)\([^\n]*\)(?: #\d+)?) \{$', r'\1 "wasm-export-name"="\2" {'),
)
# What says something of AArch64 alone.
OF_ANOTHER = r' "(?:frame-pointer|probe-stack|stack-probe-size|target-cpu)"="[^"]*"'


def main(file):
    text = open(file, encoding="latin-1").read()
    for pattern, instead in CHANGES:
        text, count = re.subn(pattern, instead, text, flags=re.M)
        if count == 0:
            sys.exit(f"retarget: {file} has no line as {pattern}")
    if re.search(r"^declare [^\n]*@(?!llvm\.)", text, re.M):
        sys.exit(f"retarget: {file} calls what the page has not")
    sys.stdout.write(re.sub(OF_ANOTHER, "", text))


if __name__ == "__main__":
    main(sys.argv[1])
