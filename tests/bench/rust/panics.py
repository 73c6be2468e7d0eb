#!/usr/bin/env python3
"""panics.py OBJECT: the calls of panics in an object for Arm that has line tables, each with its place in the sources, and their number.

A call that the linker merged or that core makes itself is counted where the code of the package makes it."""
import re
import subprocess
import sys

PANIC = re.compile(r"panicking|_fail\b|unwrap_failed|expect_failed|begin_unwind")
SECTION = re.compile(r"Disassembly of section (.*):")
FUNCTION = re.compile(r"^[0-9a-f]+ <(.*)>:")
INSTRUCTION = re.compile(r"^\s+([0-9a-f]+):\s+(b\S*)\s+\S+\s+<([^>+]*)")
RELOCATION = re.compile(r"^\s+([0-9a-f]+): R_ARM_THM_(?:CALL|JUMP\d+)\s+(\S.*)")


def said(*words):
    return subprocess.run(words, capture_output=True, text=True, check=True).stdout.splitlines()


def calls_in(object_file):
    """Each call of a panic: its section, its address and what it calls."""
    found, section, function = {}, "", ""
    for line in said("arm-none-eabi-objdump", "-drC", "--no-show-raw-insn", object_file):
        if match := SECTION.match(line):
            section = match[1]
        elif match := FUNCTION.match(line):
            function = match[1]
        elif match := RELOCATION.match(line) or INSTRUCTION.match(line):
            name = match[match.re.groups].strip()
            if PANIC.search(name) and not function.startswith(("core::", "rust_begin_unwind")):
                found[section, match[1]] = name
    return found


def place_of(object_file, section, address):
    """The line of the package at which such a call stands: the first in the sources, from the inside."""
    lines = said("arm-none-eabi-addr2line", "-e", object_file, "-j", section, "-i", "0x" + address)
    for line in lines:
        for folder in ("/dist/rust/src/", "/package/src/"):
            if folder in line:
                return ("" if "dist" in folder else "the session's own ") + line.split(folder)[1].split(" ")[0]
    return "?"


def main():
    object_file = sys.argv[1]
    found = calls_in(object_file)
    places = sorted((place_of(object_file, section, address), name) for (section, address), name in found.items())
    for place, name in places:
        print(f"  {place:40}{name.split('::')[-1]}")
    own = sum(place.startswith("the session") for place, _ in places)
    print(f"  {len(places) - own} in the package, {own} in the session")


main()
