#!/usr/bin/env python3
"""same_module.py ONE OTHER: whether two LLVM modules of a program, as text, are the same but for the processor.

That is the word target-cpu of each function, the numbers of its attributes, and what the program does before its own
start: for processors other than the oldest, main asks whether this one has all that the code takes.

Statuses: 0 the same, 1 not, with the first difference on standard error; 2 words or files that aren't understood.
"""

import re
import sys

PROCESSOR = re.compile(r'"target-cpu"="[^"]*"')
ATTRIBUTES = re.compile(r"^attributes (#\d+) = \{(.*)\}$", re.M)
NAMED = re.compile(r"(?<= )#\d+\b")
START = re.compile(r"^define i32 @main\(\).*?^\}$", re.M | re.S)
# Comments, which name the file and repeat attributes, and what main calls for its question and its answer.
UNREAD = ("; ", "declare ptr @__x86_get_cpuid_feature_leaf(", "declare i64 @__write(")


def facts(path):
    with open(path, encoding="utf-8") as file:
        text = file.read()
    meant = {number: PROCESSOR.sub("", words) for number, words in ATTRIBUTES.findall(text)}
    text, count = START.subn("", text)
    if count != 1:
        raise ValueError(f"{path} has {count} functions main")
    lines = ATTRIBUTES.sub("", text).split("\n")
    lines = [it for it in lines if it and not it.startswith(UNREAD)]
    return [NAMED.sub(lambda it: meant[it[0]], it) for it in lines]


def main(words):
    if len(words) != 2:
        print("usage: dist/make/same_module.py ONE OTHER", file=sys.stderr)
        return 2
    try:
        one, other = map(facts, words)
    except (OSError, ValueError, KeyError) as error:
        print(f"same_module: {error}", file=sys.stderr)
        return 2
    for here, there in zip(one, other):
        if here != there:
            print(f"same_module: {here[:120]}\n         and {there[:120]}", file=sys.stderr)
            return 1
    return 0 if len(one) == len(other) else 1


if __name__ == "__main__":
    sys.exit(main(sys.argv[1:]))
