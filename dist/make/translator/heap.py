#!/usr/bin/env python3
"""heap.py NUMBER MODULE.ll > HELD.ll: a module that allocates, with its heap in memory that the caller hands in. NUMBER is the refusal of
an export that gets too little of it to begin.

Each export that may allocate takes two parameters more, a pointer to words of 8 bytes and how many these are. Each function on the way to
the heap takes the pointer along, so the library keeps nothing between two calls. The heap's first three words say where its free part
begins, where it ends, and where the last block begins, each counted in bytes from the heap's own place. Blocks follow one another. The last
one grows where it is, and is given back; any other stays until the call is over."""
import re
import sys

from refusals import end_if_any, refuse

HEAP = "libc::heap::rattle_"
HEAD = 24
FIRST = re.compile(r'define ([^@]*)(@"[^"]+"|@\w+)\((.*)\)([^()]*\{)')
CALL = re.compile(r'  (?:\S+ = )?call [^@]*(@"[^"]+"|@\w+)\(')
# What takes the place of the three functions of the heap, as the kit calls them: the answer's place, nothing, the numbers of the call, and
# the heap. An answer is whether there is a block, and where; without one the place is any that is not null.
INSTEAD = {
    "alloc": """(ptr %a0, ptr %a1, i64 %a2, i64 %a3, ptr %a4) {
start:
  %r0 = load i64, ptr %a4, align 8
  %r1 = getelementptr i8, ptr %a4, i64 8
  %r2 = load i64, ptr %r1, align 8
  %r3 = sub i64 %r2, %r0
  %r4 = getelementptr i8, ptr %a0, i64 8
  %r5 = icmp ult i64 %a2, %r3
  br i1 %r5, label %then.1, label %else.1

then.1:
  %r6 = add i64 %a2, 8
  %r7 = and i64 %r6, -8
  %r8 = add i64 %r0, %r7
  store i64 %r8, ptr %a4, align 8
  %r9 = getelementptr i8, ptr %a4, i64 16
  store i64 %r0, ptr %r9, align 8
  %r10 = getelementptr i8, ptr %a4, i64 %r0
  store i64 1, ptr %a0, align 8
  store ptr %r10, ptr %r4, align 8
  ret void

else.1:
  store i64 0, ptr %a0, align 8
  store ptr %a4, ptr %r4, align 8
  ret void
}""",
    "realloc": """(ptr %a0, ptr %a1, ptr %a2, i64 %a3, i64 %a4, i64 %a5, ptr %a6) {
start:
  %r0 = getelementptr i8, ptr %a6, i64 16
  %r1 = load i64, ptr %r0, align 8
  %r2 = getelementptr i8, ptr %a6, i64 %r1
  %r3 = getelementptr i8, ptr %a0, i64 8
  %r4 = icmp eq ptr %r2, %a2
  br i1 %r4, label %then.1, label %else.1

then.1:
  %r5 = getelementptr i8, ptr %a6, i64 8
  %r6 = load i64, ptr %r5, align 8
  %r7 = sub i64 %r6, %r1
  %r8 = icmp ult i64 %a4, %r7
  br i1 %r8, label %then.2, label %else.2

then.2:
  %r9 = add i64 %a4, 8
  %r10 = and i64 %r9, -8
  %r11 = add i64 %r1, %r10
  store i64 %r11, ptr %a6, align 8
  store i64 1, ptr %a0, align 8
  store ptr %a2, ptr %r3, align 8
  ret void

else.2:
  store i64 0, ptr %a0, align 8
  store ptr %a6, ptr %r3, align 8
  ret void

else.1:
  call void @"libc::heap::rattle_alloc"(ptr %a0, ptr %a1, i64 %a4, i64 %a5, ptr %a6)
  %r12 = load i64, ptr %a0, align 8
  %r13 = icmp eq i64 %r12, 0
  br i1 %r13, label %then.3, label %else.3

then.3:
  ret void

else.3:
  %r14 = load ptr, ptr %r3, align 8
  call void @llvm.memmove.p0.p0.i64(ptr %r14, ptr %a2, i64 %a3, i1 false)
  ret void
}""",
    "dealloc": """(ptr %a0, ptr %a1, ptr %a2) {
start:
  %r0 = getelementptr i8, ptr %a2, i64 16
  %r1 = load i64, ptr %r0, align 8
  %r2 = getelementptr i8, ptr %a2, i64 %r1
  %r3 = icmp eq ptr %r2, %a1
  br i1 %r3, label %then.1, label %else.1

then.1:
  store i64 %r1, ptr %a2, align 8
  ret void

else.1:
  ret void
}""",
}
# An export: it refuses what is too short for the three words, writes them, and calls what the kit exports.
EXPORT = """define {result} {name}({parameters}, ptr %a{heap}, i64 %a{words}) {{
start:
  %r0 = icmp ult i64 %a{words}, {least}
  br i1 %r0, label %then.1, label %else.1

then.1:
  ret {result} {refused}

else.1:
  %r1 = mul i64 %a{words}, 8
  store i64 {head}, ptr %a{heap}, align 8
  %r2 = getelementptr i8, ptr %a{heap}, i64 8
  store i64 %r1, ptr %r2, align 8
  %r3 = getelementptr i8, ptr %a{heap}, i64 16
  store i64 0, ptr %r3, align 8
  %r4 = call {result} {inner}({given}, ptr %a{heap})
  ret {result} %r4
}}"""


def functions(lines):
    """Of each function that is defined: its name, its first line, and the line after its last one."""
    at = None
    for number, line in enumerate(lines):
        if line.startswith("define "):
            at = number
        elif line == "}" and at is not None:
            yield FIRST.fullmatch(lines[at])[2], at, number + 1
            at = None


def reaching(lines):
    """The names of the functions from which a way leads to the heap."""
    calls = {name: {it[1] for it in map(CALL.match, lines[at:end]) if it} for name, at, end in functions(lines)}
    found, more = set(), {f'@"{HEAP}{it}"' for it in INSTEAD}
    while more:
        found |= more
        more = {name for name, called in calls.items() if called & found} - found
    return found


def with_heap(body, found):
    """A function that takes the heap along."""
    kind, name, parameters, rest = FIRST.fullmatch(body[0]).groups()
    heap = f"%a{parameters.count('%a')}"
    lines = [f"define {kind}{name}({parameters + ', ' if parameters else ''}ptr noundef {heap}){rest}"]
    for line in body[1:]:
        call = CALL.match(line)
        if call and call[1] in found:
            line = f"{line[:-1]}{'' if line.endswith('()') else ', '}ptr {heap})"
        lines.append(line)
    return lines


def exported(body, found, refused):
    """An export, and the function of the kit behind it, which has its name with another word before it."""
    kind, name, parameters, rest = FIRST.fullmatch(body[0]).groups()
    inner = f'@"held::{name[1:]}"'
    count, result = parameters.count("%a"), kind.split()[-1]
    given = re.sub(r" noundef", "", parameters)
    words = {"result": result, "name": name, "parameters": given, "given": given, "inner": inner, "heap": count, "words": count + 1,
             "least": HEAD // 8, "head": HEAD, "refused": refused}
    behind = with_heap([f"define internal {result} {inner}({parameters}){rest}", *body[1:]], found)
    return [*behind, "", *EXPORT.format(**words).split("\n")]


def main(refused, file):
    lines = open(file, encoding="latin-1").read().rstrip("\n").split("\n")
    found = reaching(lines)
    made, done = [], 0
    for name, at, end in functions(lines):
        made += lines[done:at]
        done = end
        heap = name.strip('@"').removeprefix(HEAP)
        if heap in INSTEAD and HEAP in name:
            made += (f"define internal void {name}" + INSTEAD[heap]).split("\n")
        elif name in found and not name.startswith('@"'):
            made += exported(lines[at:end], found, refused)
        else:
            made += with_heap(lines[at:end], found) if name in found else lines[at:end]
    made += lines[done:]
    for number, line in enumerate(made, 1):
        if re.match(r"declare .* @rattle_(re|de)?alloc\(", line) or line.endswith("= { nobuiltin nounwind }"):
            continue
        if "@rattle_" in line:
            refuse(number, "another call of the system than of its heap", line)
        print(line)
    end_if_any()


if __name__ == "__main__":
    main(int(sys.argv[1]), sys.argv[2])
