"""The sentences of comments and of pages, and those of them that begin with What, How, Whether, Where, Why, That or "The same": a sentence
like that names its subject late, or not at all. Each tree of sources has a budget, in hundredths of its sentences."""
import re

OPENING = re.compile(r"(?:What|How|Whether|Where|Why|That|The same)\b")
END = re.compile(r"(?<=[.!?:])\s+(?=[A-Z`*\[(\"])")
BLOCK = re.compile(r"\n\s*\n|\n(?=\s*[-|#>]|\s*\d+\. )")
LEAST_WORDS = 4
# A tree, the files that it has, and its budget. The aim is at most 6.0 for each.
TREES = (
    ("crates, .rt", lambda it: it.startswith("crates/") and it.endswith(".rt"), 1.0),
    ("crates, .antt", lambda it: it.startswith("crates/") and it.endswith(".antt"), 3.0),
    ("C of apps/", lambda it: it.startswith("apps/") and it.endswith((".c", ".h")), 6.0),
    ("headers of include/", lambda it: it.startswith("include/") and it.endswith(".h"), 6.0),
    ("C of examples/ and tests/", lambda it: it.startswith(("examples/", "tests/")) and it.endswith((".c", ".h")), 6.0),
    ("JavaScript of apps/web", lambda it: it.startswith("apps/web/") and it.endswith(".js"), 6.0),
    ("JavaScript of tests/", lambda it: it.startswith("tests/") and it.endswith(".js"), 6.0),
    ("pages", lambda it: it.endswith(".md"), 4.8),
)


def blocks_of(path, lines):
    """The comments of a source, or the paragraphs, items and cells of a page, each with the line where it begins."""
    text = "\n".join(lines)
    if path.endswith(".md"):
        for block in BLOCK.split(re.sub(r"```.*?```", "", text, flags=re.S)):
            yield from ((0, " ".join(cell.split()).lstrip("-#* ")) for cell in (block.split("|") if block.startswith("|") else [block]))
    elif path.endswith((".c", ".h")):
        for it in re.finditer(r"/\*(.*?)\*/", text, re.S):
            body = re.sub(r"@(?:brief|file \S+)\s*", "", re.sub(r"@(?:return|param \w+)\s*", ". ", it[1]))
            yield text.count("\n", 0, it.start()) + 1, " ".join(line.strip().lstrip("*<").strip() for line in body.split("\n")).strip()
    else:
        mark, found, start = ("--" if path.endswith(".antt") else "//"), [], 0
        for number, line in enumerate(lines + [""], 1):
            if line.strip().startswith(mark):
                start = start if found else number
                found.append(line.strip().lstrip("/-!").strip())
            elif found:
                yield start, " ".join(found)
                found = []


def sentences(path, lines):
    """The sentences of a file that have LEAST_WORDS words, each with its line."""
    for number, block in blocks_of(path, lines):
        yield from ((number, it) for it in END.split(block) if len(it.split()) >= LEAST_WORDS and "SPDX" not in it)


def counted(files):
    """For each tree: its name, its sentences, those that begin so as `PATH:LINE: SENTENCE`, and its budget."""
    for name, has, most in TREES:
        every, late = 0, []
        for path, lines in files:
            if has(path):
                for number, it in sentences(path, lines):
                    every += 1
                    if OPENING.match(it):
                        late.append(f"{path}:{number}: {it[:100]}")
        yield name, every, late, most
