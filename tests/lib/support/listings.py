"""Runs the commands of the pages, and compiles their C, in a folder of its own. (The Rust of docs/RUST.md: tests/lib/rust/page.) Of the
Rattle on the crates' pages each call has to be one of the crates: a proof of it would take minutes.

A command that needs a board, root, another program or much time is named in LEFT_OUT with the test that runs it; each other one has to
succeed, and prints the lines that stand below it. So a new block of a page is run, or it is named here.
"""
import os
import re
import shutil
import subprocess
import tempfile

# The pages in whose order the commands are run, since the second takes the file that the first one makes.
FIRST = ("docs/FILES.md", "docs/SCRIPT.md")
# How a command begins that is not run, and why.
LEFT_OUT = {
    "sudo ": "root",
    "make": "tests/build/make, tests/build/install and tests/apps/web",
    "apps/web/serve": "tests/apps/web",
    "dfu-flash": "a board; tests/apps/flash, and tests/apps/gadget for the lists",
    "mkdir usb": "tests/apps/flash",
    "LD_LIBRARY_PATH=usb": "tests/apps/flash",
    "USB_DEVICE=dfuse": "tests/apps/dfuse",
    "build/dfu judge log": "tests/apps/flash",
    "dfu judge log": "tests/apps/flash",
    "arm-none-eabi-gcc": "tests/c/porting",
    "examples/": "tests/c/microbit and tests/slow/signed, in QEMU",
    "SODIUM=": "tests/slow/signed",
    "fwupdtool": "tests/apps/interop",
    "dfu-util": "a board; tests/apps/interop and tests/apps/alternates",
    "cd tests/unit": "tests/dist/rust",
    "cargo ": "tests/dist/rust",
}
# What stands before and after the C of a page, so that a compiler takes it.
AROUND = {
    "include/README.md": ("""#include "dfu_device.h"
#include "dfu_host.h"
static struct dfu_device dfu;
static struct dfu_session session;
static struct dfu_action action;
static struct dfu_ids ids;
static uint8_t setup[8], data[64], file[64], descriptor[9], answer[64], none[1];
static size_t length, payload, count;
int page(void);
int page(void) {
    int32_t n;
""", "    return (int)n;\n}\n"),
}
# Calls of the kit that the Rattle on a page makes.
OF_THE_KIT = {"alloc", "is_err", "split_at"}
FENCE = re.compile(r"^```([^\n]*)\n(.*?)^```$", re.M | re.S)


def commands(block):
    """Returns the commands of a block, each with the lines that stand below it."""
    found = []
    for line in block.splitlines():
        if line.startswith("$ "):
            found.append((line[2:], []))
        elif found:
            found[-1][1].append(line)
    return found


def is_left_out(command):
    """Says whether another test runs a command, or none can."""
    return command.startswith(tuple(LEFT_OUT))


def fault_of(command, lines, folder, build):
    """Returns the fault of a command: it fails, or prints other lines than the page has."""
    path = f"{build}{os.pathsep}{os.environ.get('PATH', '')}"
    ended = subprocess.run(["sh", "-c", command], cwd=folder, capture_output=True, text=True, check=False, env={**os.environ, "PATH": path})
    if ended.returncode:
        return f"`{command}` ends with {ended.returncode}: {(ended.stdout + ended.stderr).strip()[-200:]}"
    if lines and ended.stdout.splitlines() != lines:
        return f"`{command}` prints {ended.stdout!r}"
    return ""


def faults_of_c(page, text, top, folder):
    """Yields for each piece of C of a page nothing, or the words of the compiler."""
    for kind, block in FENCE.findall(text):
        if kind != "c":
            continue
        if page not in AROUND:
            yield f"{page}: tests/lib/support/listings.py has nothing around its C"
            continue
        before, after = AROUND[page]
        with open(os.path.join(folder, "page.c"), "w", encoding="utf-8") as file:
            file.write(before + block + after)
        compiler = ["gcc", "-std=c11", "-Wall", "-Wextra", "-Werror", "-fsyntax-only", "-I", os.path.join(top, "include"), "page.c"]
        ended = subprocess.run(compiler, cwd=folder, capture_output=True, text=True, check=False)
        yield f"{page}: {ended.stderr[:300]}" if ended.returncode else ""


def calls_of_crates(top):
    """Returns the names of the functions that the crates define."""
    found = set(OF_THE_KIT)
    for folder, _, files in os.walk(os.path.join(top, "crates")):
        for name in (it for it in files if it.endswith(".rt") and "/src" in folder):
            with open(os.path.join(folder, name), encoding="utf-8") as file:
                found |= set(re.findall(r"\bfn (\w+)", file.read()))
    return found


def faults_of_rattle(page, text, known):
    """Yields for each piece of Rattle on a crate's page nothing, or the calls in it that no crate defines."""
    for kind, block in FENCE.findall(text):
        if page.startswith("crates/") and kind in ("rust", "text"):
            called = re.findall(r"\b([a-z_]\w*)\(", re.sub("//.*", "", block))
            gone = sorted(set(called) - known)
            yield f"{page}: no crate has {', '.join(gone)}" if gone else ""


def faults(top, pages, text_of):
    """Yields for each command and each piece of code nothing, or its fault. Without gcc or a built `dfu` only Rattle is looked at."""
    known = calls_of_crates(top)
    for page in pages:
        yield from faults_of_rattle(page, text_of(page), known)
    build = os.path.abspath(os.environ.get("BUILD") or os.path.join(top, "build"))
    if not os.path.exists(os.path.join(build, "dfu")) or not shutil.which("gcc"):
        print("the commands of the pages are left out: there is no gcc, or no dfu in build")
        return
    with tempfile.TemporaryDirectory() as folder:
        for name in ("dist", "examples", "include"):
            os.symlink(os.path.join(top, name), os.path.join(folder, name))
        os.symlink(build, os.path.join(folder, "build"))
        for page in [*FIRST, *(it for it in pages if it not in FIRST)]:
            text = text_of(page)
            for kind, block in FENCE.findall(text):
                if kind not in ("", "sh"):
                    continue
                for command, lines in commands(block):
                    command = re.sub(r"\s+#.*", "", command)
                    if not is_left_out(command):
                        fault = fault_of(command, lines, folder, build)
                        yield fault and f"{page}: {fault}"
            yield from faults_of_c(page, text, top, folder)
