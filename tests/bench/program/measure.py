#!/usr/bin/env python3
"""Prints what `check`, `add` and `run` take: PROGRAM FOLDER. A row whose command is missing is left out, by name.

Each time is the shortest of 30 runs of the program, from its start to its end; those of `run` are the shortest of 100, and have
that of a run of 9 passes taken off.
"""
import os
import re
import shutil
import subprocess
import sys
import time
import zlib

PROGRAM, FOLDER = sys.argv[1:]
MOST = 16_777_216
ROUNDS = 30
RUN_ROUNDS = 100
SUFFIX = bytes.fromhex("ffffffffffff000155464410")


def path(name):
    return os.path.join(FOLDER, name)


def put(name, data):
    """Makes a file that is on the disk."""
    with open(path(name), "wb") as file:
        file.write(data)
        file.flush()
        os.fsync(file.fileno())


def file_of(payload):
    """A .dfu file for any device."""
    file = payload + SUFFIX
    return file + (zlib.crc32(file) ^ 0xFFFFFFFF).to_bytes(4, "little")


def has(tool, row):
    if shutil.which(tool):
        return True
    print(f"left out, since {tool} is missing: {row}")
    return False


def best(work, prepare=None):
    """The shortest times of some work, each time from the same beginning: milliseconds on the clock, and of the processor."""
    clock = processor = 1e9
    for _ in range(ROUNDS):
        if prepare:
            prepare()
        began = time.perf_counter()
        used = work()
        clock = min(clock, time.perf_counter() - began)
        processor = min(processor, used)
    return 1000 * clock, 1000 * processor


def spent(program, *words):
    """Runs a program, which has to succeed, and answers the seconds of the processor."""
    to_nothing = [(os.POSIX_SPAWN_OPEN, 1, os.devnull, os.O_WRONLY, 0)]
    child = os.posix_spawn(program, [program, *words], os.environ, file_actions=to_nothing)
    _, status, used = os.wait4(child, 0)
    if status:
        raise SystemExit(f"{program} {' '.join(words)}: {status}")
    return used.ru_utime + used.ru_stime


def dfu(*words):
    return spent(PROGRAM, *words)


def traced(tool, *words):
    """What a tool writes of a run of the program."""
    done = subprocess.run([*tool, PROGRAM, *words], stdout=subprocess.DEVNULL, stderr=subprocess.PIPE, text=True, check=True)
    return done.stderr


def counted(*words):
    """The instructions of a run."""
    log = traced(["valgrind", "--tool=callgrind", "--callgrind-out-file=/dev/null"], *words)
    return int(re.search(r"Collected : (\d+)", log)[1])


def allocations(*words):
    log = traced(["valgrind"], *words)
    return re.search(r"heap usage: ([\d,]+) allocs", log)[1]


def check():
    full, small = path("full.dfu"), path("small.dfu")
    if has("valgrind", "the instructions of check"):
        each = (counted("check", full) - counted("check", small)) / MOST
        print(f"{each:.2f} instructions a byte: check of 16 MiB")
    if has("strace", "the reads of check"):
        reads = traced(["strace", "-e", "trace=read", "-P", full], "check", full).count("read(")
        print(f"{reads} reads: check of 16 MiB")
    clock, processor = best(lambda: dfu("check", full))
    print(f"{clock:.1f} ms, {processor:.1f} of the processor: check of 16 MiB")
    for other, *words in (("cksum",), ("dfu-suffix", "-c")):
        if has(other, f"what {other} takes for the same file"):
            clock, processor = best(lambda: spent(shutil.which(other), *words, full))
            print(f"{clock:.1f} ms, {processor:.1f} of the processor: {' '.join((other, *words))} of the same file")


def replace(data, to):
    """The least that a file takes which is whole at each time: write, fsync, rename. Answers the seconds of the processor."""
    began = time.process_time()
    part = os.open(path("part"), os.O_WRONLY | os.O_CREAT | os.O_EXCL)
    if os.write(part, data) != len(data):
        raise OSError("the file system took a part of a write")
    os.fsync(part)
    os.rename(path("part"), to)
    os.close(part)
    return time.process_time() - began


def add():
    raw = os.urandom(MOST - 16)
    full = file_of(raw)
    put("raw", raw)

    def remove():
        if os.path.exists(path("out")):
            os.remove(path("out"))

    cases = (
        ("a new OUT", "raw", "out", remove),
        ("OUT is FILE itself", "again", "again", lambda: put("again", raw)),
        ("another file of 16 MiB is replaced", "raw", "out", lambda: put("out", full)),
    )
    for name, file, out, prepare in cases:
        file, out = path(file), path(out)
        clock, processor = best(lambda: dfu("add", file, out), prepare)
        bare, writing = best(lambda: replace(full, out), prepare)
        print(f"{clock:.1f} ms, {processor:.1f} of the processor: add of 16 MiB, {name}")
        print(f"{bare:.1f} ms, {writing:.1f} of the processor: a bare write, fsync and rename there")
    if has("time", "the memory of add"):
        kilobytes = traced(["time", "-f", "%M"], "add", path("raw"), path("out")).split()[-1]
        print(f"{kilobytes} kB of memory at most: add of 16 MiB")


def script(name, blocks, downloads):
    """Makes a script of downloads in blocks of one byte, and answers how many passes they are."""
    passes = 2 * blocks + 7
    offer = b"offer " + file_of(b"\xa5" * blocks).hex().encode() + b"\ngo pass %d\n" % passes
    put(name, b"device 07 255 1 1 0 0\ncapacity 32000\n" + offer * downloads)
    return passes * downloads


def run():
    cases = {"idle": (1, 1), "short": (4_997, 1), "middle": (32_000, 1), "long": (32_000, 20)}
    passes = {name: script(name, *case) for name, case in cases.items()}
    least = dict.fromkeys(cases, 1e9)
    # In turn, so that what else the machine does for a moment meets each of them.
    for _ in range(RUN_ROUNDS):
        for name in cases:
            least[name] = min(least[name], dfu("run", path(name)))
    for name in ("short", "middle", "long"):
        took = 1000 * (least[name] - least["idle"])
        rate = passes[name] / took / 1000
        print(f"{took:.1f} ms of the processor, {rate:.1f} million passes a second: run of {passes[name]:,} passes")
    if has("valgrind", "the allocations of run"):
        for name in ("short", "middle"):
            print(f"{allocations('run', path(name))} allocations: run of {passes[name]:,} passes")


def main():
    put("small.dfu", file_of(b"123456789"))
    put("full.dfu", file_of(os.urandom(MOST - 16)))
    check()
    add()
    run()


main()
