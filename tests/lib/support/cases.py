"""Runs of `dfu` with inputs and words that were changed: for tests/fuzz/dfu."""
import re

from mutants import captures, crc_mended, image_of, mutant, read, suffixed, summed

ODD = ("", "-", "--", "ffff", "0x1209", "12 9", "\udcff", "\u00e9", "g" * 5000, "--json", "--json=1", "--explain", "--vid", "--vid=1209",
       "--fill", "--format=uf2", "--trace", "--file", "--help", "-V", "0", "1.2", "256", "nowhere", ".", "in", "configuration")
KINDS = ("functional", "status", "state", "setup", "configuration")
BYTES = (b"09210bff0000081001", b"07210bff000008", b"000500000400", b"02", b"2101000000000800", b"a103000000000600",
         b"09022d000101008032 0904000000fe010200 09210bff0000081001 0904000100fe010200 09210bff0000081001")
LOGS = read("examples/captures/*.log")
CAPTURES = captures()
SCRIPTS = read("examples/*.script")
TABLE = read("share/parts.txt")[0]
PARTS = sorted({line.split()[0].decode() for line in TABLE.splitlines() if line and not line.startswith(b"#")})


class Case:
    """A run: its words, what is in `in`, in `other` and in `out` before it, and how its words were made."""

    def __init__(self, words, given, out=None, other=None, is_piped=False):
        self.words, self.given, self.out, self.other, self.is_piped = words, given, out, other, is_piped
        self.is_sound = True


def dfu_file(dice):
    """A DFU file that was changed, in half of the cases with the CRC mended."""
    ids = [dice.choice((0xFFFF, 0x1209, 1, 0x0100)) for _ in range(3)]
    file = suffixed(dice.randbytes(dice.choice((0, 1, 5, 100, 600))), ids, dice.choice((0x0100,) * 5 + (0x011A, 0x0110)),
                    dice.randbytes(dice.choice((0, 0, 0, 4, 200))))
    file = mutant(dice, file, suffixed(dice.randbytes(40)), False)
    return crc_mended(file) if dice.random() < 0.5 else file


def hexadecimal(dice):
    return "%04x" % dice.choice((0, 1, 0x1209, 0xFFFF, dice.randrange(65536)))


def of_check(dice):
    is_piped, others = dice.random() < 0.2, dice.choice(((), (), ("other",), ("nowhere", "other")))
    words = ["check", "-" if is_piped else "in", *others, *some(dice, "--json")]
    return Case(words, dfu_file(dice), other=dfu_file(dice), is_piped=is_piped)


def of_add(dice):
    kind, image = image_of(dice)
    image = mutant(dice, image, image_of(dice)[1], kind in ("ihex", "srec"))
    image = summed(image) if dice.random() < 0.6 and kind in ("ihex", "srec") else image
    image = dfu_file(dice) if dice.random() < 0.1 else image
    words = [it for name in ("vid", "pid", "did") if dice.random() < 0.3 for it in ("--" + name, hexadecimal(dice))]
    if dice.random() < 0.9:
        words += ["--format", dice.choice((kind, kind, "auto", "auto", "raw", "ihex", "srec", "uf2", "elf"))]
    if dice.random() < 0.6:
        words += ["--fill", "%02x" % dice.randrange(256)]
    is_piped = dice.random() < 0.2
    return Case(["add", "-" if is_piped else "in", "out", *words], image, dice.choice((None, b"old")), is_piped=is_piped)


def of_extract(dice):
    is_piped = dice.random() < 0.2
    return Case(["extract", "-" if is_piped else "in", "out"], dfu_file(dice), dice.choice((None, b"old")), is_piped=is_piped)


def of_set(dice):
    words = [it for name in ("vid", "pid", "did") if dice.random() < 0.5 for it in ("--" + name, hexadecimal(dice))]
    return Case(["set", "in", *words], dfu_file(dice))


def of_show(dice):
    place = dice.randrange(len(BYTES))
    text = mutant(dice, BYTES[place], dice.choice(BYTES), True).replace(b"\0", b":").decode("utf-8", "surrogateescape")
    # The bytes are words, as lsusb and xxd print them, or one word.
    cut = dice.choice((0, 2, 4))
    words = [text] if cut == 0 else [text[at:at + cut] for at in range(0, len(text), cut)]
    kind = KINDS[(0, 0, 1, 2, 3, 3, 4)[place]] if dice.random() < 0.8 else dice.choice(KINDS)
    return Case(["show", kind, *[word for word in words if not word.startswith("-")][:400], *some(dice, "--json")], b"")


def of_run(dice):
    script = mutant(dice, dice.choice(SCRIPTS), dice.choice(SCRIPTS), True)[:20000]
    is_piped = dice.random() < 0.2
    words = ["run", "-" if is_piped else "in", *some(dice, "--trace")]
    if dice.random() < 0.3:
        script = script.replace(b"offer ", b"offer FILE\n#", 1)
        words += ["--file", "other"]
    return Case(words, script, other=dfu_file(dice), is_piped=is_piped)


def of_judge(dice):
    def given():
        if dice.random() < 0.5:
            return mutant(dice, dice.choice(LOGS), dice.choice(LOGS), True)
        return mutant(dice, dice.choice(CAPTURES), dice.choice(CAPTURES), False)

    is_piped, others = dice.random() < 0.2, dice.choice(((), (), ("other",)))
    words = ["judge", "-" if is_piped else "in", *others, *some(dice, "--json"), *some(dice, "--dfuse")]
    words += dice.choice(((), (), ("--interface", dice.choice(("0", "1", "255"))), ("--device", dice.choice(("only", "1.2", "3.57")))))
    return Case(words, given(), other=given(), is_piped=is_piped)


def table_of(dice):
    """A table of a part whose sectors no part has: its regions mostly follow each other."""
    at, lines = dice.choice((0, 0x08000000, 0xFFF00000)), []
    for _ in range(dice.randrange(1, 6)):
        sector, count = dice.choice((256, 1024, 4096, 16384, 65536, 131072, 262144, 3000)), dice.choice((1, 1, 2, 3, 4, 7, 16, 128))
        lines.append(f"one 0x{at:x} {sector} {count} # drawn\n")
        at += sector * count + dice.choice((0, 0, 0, 0, sector, -256))
    return "".join(lines).encode()


def of_plan(dice):
    table = table_of(dice) if dice.random() < 0.5 else mutant(dice, TABLE, TABLE, True)
    is_piped, has_table = dice.random() < 0.2, dice.random() < 0.7
    part = "one" if has_table and table.startswith(b"one") and dice.random() < 0.9 else dice.choice(PARTS)
    boot = dice.choice(("32k", "16k", "24k", "0x8000", "32768", "0", "1", "1m", str(dice.randrange(1 << 21)), str(1 << 32)))
    words = ["plan", "--part", part, "--boot", boot, *some(dice, "--json"), *dice.choice(((), ("--areas", dice.choice("23314"))))]
    return Case(words + (["--parts", "-" if is_piped else "in"] if has_table else []), table, is_piped=is_piped)


def number_of(word):
    return int(word, 16 if word[:2] in ("0x", "0X") else 10)


def is_edge(place, regions):
    """True if a sector begins or ends at the place."""
    return any(0 <= place - at <= sector * count and (place - at) % sector == 0 for at, sector, count in regions)


def wrong_plan(case, said):
    """The fault of the places of a plan that was printed, or an empty text."""
    if case.words[0] != "plan" or not case.is_sound or "--json" in case.words:
        return ""
    spans = sorted((int(at, 16), int(size)) for at, size in re.findall(rb" at ([0-9a-f]{8}) bytes (\d+)", said))
    if len(spans) != 6 + (b"run area at" in said) or any(at + size > after for (at, size), (after, _) in zip(spans, spans[1:])):
        return f"{spans} are not the things, or overlap"
    table = case.given if "--parts" in case.words else TABLE
    rows = [line.split(b"#")[0].decode().split() for line in table.splitlines()]
    regions = [[number_of(row[1]), number_of(row[2].rstrip("kK")) << 10 * (row[2][-1] in "kK"), number_of(row[3])]
               for row in rows if row[:1] == [case.words[2]]]
    wrong = [(at, size) for at, size in spans if not (is_edge(at, regions) and is_edge(at + size, regions))]
    return f"{wrong} are no whole sectors" if wrong else ""


def some(dice, word):
    return [word] if dice.random() < 0.4 else []


def case_of(command, dice):
    """A run of the command. In one of eight a word is changed, left out or added."""
    case = globals()["of_" + command](dice)
    if dice.random() < 0.5:
        case.words.append("--explain")
    if dice.random() < 0.125:
        case.is_sound = False
        at = dice.randrange(1, len(case.words) + 1)
        case.words[at:at + dice.randrange(2)] = [dice.choice(ODD)] * dice.randrange(2)
    return case
