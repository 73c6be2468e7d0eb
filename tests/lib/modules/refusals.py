#!/usr/bin/env python3
"""refusals.py TRANSLATOR FOLDER: each line that the translator does not know, planted one at a time in the modules in FOLDER (small.ll,
small.wide.ll and flow.ll, as tests/dist/translator makes them), is refused at one line that is shown, with status 1, and nothing is written.
What is otherwise is printed; the last line is how many are right and how many are wrong."""
import os
import re
import sys

sys.dont_write_bytecode = True
sys.path.insert(0, sys.argv[1])
FOLDER = sys.argv[2]
SMALL, WIDE, FLOW = "small.ll", "small.wide.ll", "flow.ll"

# Above the first table of a module of the kit.
ABOVE = [
    ("an address in a global", "@static.999 = private unnamed_addr constant ptr @static.0, align 8"),
    ("a global that is written", "@static.999 = internal global [4 x i8] zeroinitializer, align 4"),
    ("a table with an address", "@static.999 = private unnamed_addr constant [1 x ptr] [ptr @static.0], align 8"),
    ("a table of fewer bytes than it says", "@static.999 = private unnamed_addr constant [4 x i8] c\"abc\", align 1"),
    ("a function of another program", "declare i32 @puts(ptr) #0"),
    ("an intrinsic that is not known", "declare { i64, i1 } @llvm.uadd.with.overflow.i64(i64, i64) #0"),
    ("the assembler of a module", "module asm \"nop\""),
    ("another name of a function", "@other = alias void (), ptr @\"small::sum\""),
    ("a target that is not known", "target triple = \"x86_64-unknown-linux-gnu\""),
]

# In the first function, of a module of the kit and of one that is widened.
PLANTED = [
    ("a call by a pointer", "  call void %a0(ptr %a0)"),
    ("the address of a function", "  store ptr @\"other\", ptr %a0, align 8"),
    ("a constant that becomes a pointer", "  %x = inttoptr i64 4096 to ptr"),
    ("a pointer that becomes 32 bits", "  %x = ptrtoint ptr %a0 to i32"),
    ("an address in words", "  %x = getelementptr i32, ptr %a0, i64 1"),
    ("an address of a field", "  %x = getelementptr { i8, ptr }, ptr %a0, i64 0, i32 1"),
    ("an address by 32 bits", "  %x = getelementptr i8, ptr %a0, i32 1"),
    ("an order of pointers", "  %x = icmp ult ptr %a0, null"),
    ("a struct in memory", "  %x = alloca { i8, ptr }, align 8"),
    ("an array of words", "  %x = alloca [4 x i32], align 8"),
    ("as many bytes as a number says", "  %x = alloca i8, i64 8, align 1"),
    ("a store of two parts", "  store { ptr, i64 } poison, ptr %a0, align 8"),
    ("three parts", "  %x = load { i8, i8, ptr }, ptr %a0, align 8"),
    ("parts within a part", "  %x = load { i8, { i8, ptr } }, ptr %a0, align 8"),
    ("a volatile load", "  %x = load volatile i32, ptr %a0, align 4"),
    ("a volatile store", "  store volatile i32 0, ptr %a0, align 4"),
    ("an atomic store", "  store atomic i32 0, ptr %a0 seq_cst, align 4"),
    ("an exchange", "  %x = atomicrmw add ptr %a0, i32 1 seq_cst, align 4"),
    ("a fence", "  fence seq_cst"),
    ("a volatile copy", "  call void @llvm.memmove.p0.p0.i64(ptr %a0, ptr %a0, i64 8, i1 true)"),
    ("a copy by 32 bits", "  call void @llvm.memmove.p0.p0.i32(ptr %a0, ptr %a0, i32 8, i1 false)"),
    ("128 bits", "  %x = add i128 1, 2"),
    ("65 bits", "  %x = add i65 1, 2"),
    ("a fraction", "  %x = fadd double 1.0, 2.0"),
    ("a vector", "  %x = add <4 x i32> zeroinitializer, zeroinitializer"),
    ("a division with signs", "  %x = sdiv i32 1, 2"),
    ("a rest with signs", "  %x = srem i32 1, 2"),
    ("a shift with a sign", "  %x = ashr i32 1, 2"),
    ("a number that becomes longer with its sign", "  %x = sext i8 1 to i32"),
    ("a cast of any kind", "  %x = bitcast i64 1 to double"),
    ("the assembler", "  call void asm sideeffect \"nop\", \"\"()"),
    ("a call that may not come back", "  musttail call void @\"other\"(ptr %a0)"),
    ("a call that may throw", "  invoke void @\"other\"(ptr %a0) to label %loop.1 unwind label %done.3"),
    ("an intrinsic", "  %x = call i64 @llvm.ctpop.i64(i64 %a1)"),
    ("an assumption", "  call void @llvm.assume(i1 true)"),
    ("a value that is not known", "  %x = add i64 %a1, undef"),
    ("a constant of a sum", "  %x = add i64 %a1, add (i64 1, i64 2)"),
    ("a name that is made nowhere", "  %x = add i64 %a1, %nowhere"),
    ("a name that is made twice", "  %r13 = add i64 %a1, 1"),
    ("an end within a block", "  ret i64 0"),
]

# In the first function of a module of the kit; an optimiser may write these.
LATE = [
    ("a number that becomes a pointer", "  %x = inttoptr i64 %a1 to ptr"),
    ("a choice", "  %x = select i1 true, i64 1, i64 2"),
    ("a value that depends on the way", "  %x = phi i64 [ 0, %start ]"),
]

# WHAT, the program that refuses it, the module, a pattern and what stands in its place.
TURNED = [
    ("an export that is none", "widen", SMALL, "^define noundef i64 @dfu_small_sum", "define noundef i64 @other"),
    ("an export of 16 bits", "widen", SMALL, "^define noundef i64 @dfu_small_sum", "define noundef i16 @dfu_small_sum"),
    ("a struct that is handed over", "widen", SMALL, "[(]ptr noundef %a0, i64 noundef %a1", "(ptr byval([8 x i8]) %a0, i64 %a1"),
    ("a struct that is given back", "widen", SMALL, "[(]ptr noundef %a0, i64 noundef %a1", "(ptr sret([8 x i8]) %a0, i64 %a1"),
    ("any number of parameters", "widen", SMALL, "[(]ptr noundef %a0, i64 noundef %a1", "(ptr noundef %a0, i64 noundef %a1, ..."),
    ("another layout", "widen", SMALL, "^target datalayout = \"e-", "target datalayout = \"E-"),
    ("another processor", "widen", SMALL, "^target triple = \"aarch64", "target triple = \"aarch64_be"),
    ("features of a processor", "widen", SMALL, "\"target-cpu\"=", "\"target-features\"=\"+sve\" \"target-cpu\"="),
    ("a function that is no usual one", "widen", SMALL, "[{] nounwind \"frame", "{ naked nounwind \"frame"),
    ("a function without its start", "widen", SMALL, "^start:$", ""),
    ("a jump to nowhere", "widen", SMALL, "^  br label %loop.1$", "  br label %nowhere"),
    ("a block without an end", "widen", SMALL, "^  br label %loop.1$", ""),
    ("a call of what is not there", "translate", WIDE, "call i64 @\"small::sum\"", "call i64 @\"small::other\""),
    ("a load of a pointer", "translate", WIDE, "= load i64, ptr %r2, align 8", "= load ptr, ptr %r2, align 8"),
    ("a store of a pointer", "translate", WIDE, "^  store i64 %wide[.][0-9]*, ptr %a0", "  store ptr %a1, ptr %a0"),
    ("a copy of 2 GiB", "translate", WIDE, "ptr %r2, i64 2, i1 false", "ptr %r2, i64 2147483648, i1 false"),
    ("a copy of a negative length", "translate", WIDE, "ptr %r2, i64 2, i1 false", "ptr %r2, i64 -2, i1 false"),
    ("a phi without a row for a way", "translate", FLOW, r", \[ %y, %loop.1 \]", ""),
    ("an array of a part of a function", "translate", FLOW, "^odd.1: .*",
     "odd.1:\n  %four = alloca [4 x i8], align 4\n  store i8 0, ptr %four, align 1"),
    ("a minimum of a number that C has not", "translate", FLOW, "call i64 @llvm.umin.i64[(]i64 %a2, i64 0[)]",
     "call i24 @llvm.umin.i24(i24 1, i24 0)"),
    ("a load of half a byte", "translate", FLOW, "%x = load i32, ptr %p, align 4", "%x = load i4, ptr %p, align 1"),
]

right = wrong = 0


def tried(program, text, header):
    """The status of a program over a module, what it wrote, and what it said; in a process of its own."""
    module, said, made = (os.path.join(FOLDER, it) for it in ("changed.ll", "said", "made"))
    with open(module, "w", encoding="latin-1") as file:
        file.write(text)
    child = os.fork()
    if child == 0:
        status = 0
        with open(made, "w", encoding="latin-1") as sys.stdout, open(said, "w", encoding="utf-8") as sys.stderr:
            try:
                sys.argv = [program, module, os.path.join(FOLDER, header)]
                PROGRAMS[program].main()
            except SystemExit as it:
                status = it.code
            except Exception as it:  # a crash is no refusal
                print(f"crash: {it!r}", file=sys.stderr)
                status = 70
        os._exit(status)
    status = os.waitstatus_to_exitcode(os.waitpid(child, 0)[1])
    return status, open(made, encoding="latin-1").read(), open(said, encoding="utf-8").read()


def refused(what, program, module, change):
    global right, wrong
    before = open(os.path.join(FOLDER, module), encoding="latin-1").read()
    after = change(before)
    status, made, said = tried(program, after, "dfu_flow.h" if module == FLOW else "dfu_small.h")
    if after != before and status == 1 and not made and said.count("\n") == 1 and re.match("translator: line [0-9]+: ", said):
        right += 1
    else:
        wrong += 1
        print(f"{what}, {program}: {'nothing is planted' if after == before else f'status {status}'}: {said[:300]}")


def main():
    for what, line in ABOVE:
        refused(what, "widen", SMALL, lambda it: re.sub("^@", lambda _: line + "\n@", it, count=1, flags=re.M))
    for what, line in PLANTED + LATE:
        for program, module in [("widen", SMALL), ("translate", WIDE)][:1 if (what, line) in LATE else 2]:
            refused(what, program, module, lambda it: it.replace("\nstart:\n", f"\nstart:\n{line}\n", 1))
    for what, program, module, pattern, instead in TURNED:
        refused(what, program, module, lambda it: re.sub(pattern, lambda _: instead, it, count=1, flags=re.M))
    print(right, wrong)


import translate  # noqa: E402 (they lie in the folder that the first word names)
import widen  # noqa: E402

PROGRAMS = {"widen": widen, "translate": translate}
main()
