"""What a public function asks of its caller: the contract that says it goes, so its docstring says it, and its body tests what can be
tested. `duties.txt` has the words for each clause; a clause without words is refused."""
import functools
import os
import re

from refusal import Refusal
from tokens import Token, code_before

HEADING = "# What the caller must keep to"
ENDS_OF_A_HEAD = {"fn", "}", ";"}


@functools.cache
def known():
    """What stands for each clause: its sentence, and what is tested, or None."""
    found, lines = {}, []
    with open(os.path.join(os.path.dirname(__file__), "duties.txt"), encoding="utf-8") as file:
        parts = file.read().split("\n\n")[1:]
    for part in parts:
        clause, *lines = part.strip("\n").split("\n")
        words = [it.strip() for it in lines]
        tests = [it[len("test "):] for it in words if it.startswith("test ")]
        found[clause] = (" ".join(it for it in words if not it.startswith("test ")), tests[0] if tests else None)
    return found


def duties_of(path, made, asked, is_declared):
    """The lines that test what a function asks, whose head `made` ends in. If it is public, they also come into its docstring."""
    start = len(made)
    while start > 0 and made[start - 1].text not in ENDS_OF_A_HEAD:
        start -= 1
    head = first_of(made, start - 1)
    public = in_public_trait(made) if is_declared else made[head].text == "pub" and made[head + 1].text != "("
    if not public:
        return []
    rows = []
    for token in asked:
        clause = " ".join(re.fullmatch(r"requires\s*\*?\s*\w*\s*\{(.*)\}", token.text, re.S)[1].split())
        if clause not in known():
            raise Refusal(path, token.line, f"what a public function asks has no words in duties.txt: {clause}")
        rows.append(known()[clause])
    margin = made[head - 1].text.rpartition("\n")[2] if made[head - 1].kind == "space" else ""
    document(path, made, head, margin, [it for it, _ in rows])
    return [f"{margin}    debug_assert!({it});" for _, it in rows if it]


def in_public_trait(made):
    """Whether the trait that is begun last is public."""
    at = max(place for place, it in enumerate(made) if it.kind == "word" and it.text == "trait")
    return made[code_before(made, at)].text == "pub"


def first_of(made, at):
    """Where the head of a function begins, whose `fn` is at a place: at `pub` if it has one."""
    while code_before(made, at) >= 0 and made[code_before(made, at)].text in ("pub", ")", "(", "crate", "const"):
        at = code_before(made, at)
    return at


def document(path, made, head, margin, sentences):
    """Puts the sentences at the end of the docstring above a place."""
    at = head - 1
    while at >= 0 and made[at].kind in ("space", "attribute"):
        at -= 1
    if at < 0 or not made[at].text.startswith("///"):
        raise Refusal(path, made[head].line, "a public function that asks something of its caller has no docstring")
    lines = ["///", f"/// {HEADING}", "///"]
    for sentence in sentences:
        lines += wrapped(sentence, 120 - len(margin))
    made.insert(at + 1, Token("comment", "".join(f"\n{margin}{it}" for it in lines), made[at].line))


def wrapped(sentence, width):
    """The lines of one point of a list."""
    lines, line = [], "/// -"
    for word in sentence.split():
        if len(line) + 1 + len(word) > width:
            lines.append(line)
            line = "///  "
        line += f" {word}"
    return [*lines, line]
