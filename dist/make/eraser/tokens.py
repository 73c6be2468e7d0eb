"""The words and signs of a source in Rattle. Ghost items and contracts are one token each, since what they hold is written in the language
of the proofs and is no Rust."""
import re

from refusal import Refusal

TOKEN = re.compile(r"""(?P<space>\s+)
    |(?P<comment>//[^\n]*|/\*.*?\*/)
    |(?P<text>b?r(?P<hashes>\#*)".*?"(?P=hashes)|b?"(?:\\.|[^"\\])*")
    |(?P<char>b?'(?:\\(?:x[0-9a-f]{2}|u\{[0-9a-f]+\}|.)|[^'\\])')
    |(?P<lifetime>'[A-Za-z_]\w*)
    |(?P<number>\d\w*(?:\.\d\w*)?)
    |(?P<word>[A-Za-z_]\w*)
    |(?P<mark>::|->|=>|\.\.=|\.\.|&&|\|\||[=!<>]=|[-+*/%&|^!=<>(){}\[\].,;:@?\#$])""", re.X | re.S)
# In the language of the proofs only braces, texts and comments count.
PROOF = re.compile(r'"(?:\\.|[^"\\])*"|--[^\n]*|[{}]|[^{}"-]+|-', re.S)
BETWEEN = re.compile(r"\s*")
OPEN, CLOSE = {"(": ")", "[": "]", "{": "}"}, {")", "]", "}"}


class Token:
    """A piece of a source: its kind, which is a group of TOKEN, `ghost` or `clause`, its text, and the line that it begins on."""

    def __init__(self, kind, text, line):
        self.kind, self.text, self.line = kind, text, line

    def is_code(self):
        return self.kind not in ("space", "comment")


class Lexer:
    """Cuts the text of one source."""

    def __init__(self, path, text):
        self.path, self.text, self.at, self.line = path, text, 0, 1

    def refuse(self, why):
        raise Refusal(self.path, self.line, why)

    def tokens(self):
        while self.at < len(self.text):
            found = TOKEN.match(self.text, self.at)
            if not found:
                self.refuse(f"a sign that is no Rust: {self.text[self.at]!r}")
            begin, line = self.at, self.line
            self.at = found.end()
            kind = "text" if found.lastgroup == "hashes" else found.lastgroup
            if kind == "word" and found.group() == "ghost":
                kind = "ghost"
                self.ghost()
            elif kind == "word" and found.group() in ("requires", "ensures"):
                kind = "clause"
                self.clause()
            text = self.text[begin:self.at]
            yield Token(kind, text, line)
            self.line = line + text.count("\n")

    def next(self, pattern):
        """Takes what stands next, behind spaces, if it is of this pattern: its text, or ''."""
        at = BETWEEN.match(self.text, self.at).end()
        found = re.compile(pattern).match(self.text, at)
        if found:
            self.at = found.end()
        return found.group() if found else ""

    def ghost(self):
        """Behind `ghost`: `use ..;`, or `name: {..}`, `name: {..} = {..}` or `name = {..}` with the comma or semicolon behind it."""
        if self.next(r"use\b"):
            if not self.next(r"[^;]*;"):
                self.refuse("a ghost use that does not end")
            return
        if not self.next(r"[A-Za-z_]\w*\b"):
            self.refuse("an unknown form of ghost")
        sign = self.next(r"[:=](?!:)")
        if not sign:
            self.refuse("an unknown form of ghost")
        self.proof_block()
        if sign == ":" and self.next("="):
            self.proof_block()
        if not self.next("[,;]") and self.text[BETWEEN.match(self.text, self.at).end():][:1] != "}":
            self.refuse("a ghost item without a comma or semicolon behind it")

    def clause(self):
        """Behind `requires` or `ensures`: `{..}`, with a star or a name before it."""
        self.next(r"\*")
        self.next(r"[A-Za-z_]\w*")
        self.proof_block()

    def proof_block(self):
        if not self.next(r"\{"):
            self.refuse("a block of the proofs is due here")
        depth = 1
        while depth:
            found = PROOF.match(self.text, self.at)
            if not found:
                self.refuse("a block of the proofs that does not end")
            self.at = found.end()
            depth += {"{": 1, "}": -1}.get(found.group(), 0)


def tokens_of(path, text):
    """The tokens of a source, in order. Their texts, one after the other, are the source again, so nothing is lost."""
    return list(Lexer(path, text).tokens())


def text_of(tokens):
    return "".join(it.text for it in tokens)


def next_code(tokens, at):
    """The first place from `at` on that has neither space nor comment, or the end."""
    while at < len(tokens) and not tokens[at].is_code():
        at += 1
    return at


def code_before(tokens, at=None):
    """The last place before `at` that has neither space nor comment, or -1."""
    at = (len(tokens) if at is None else at) - 1
    while at >= 0 and not tokens[at].is_code():
        at -= 1
    return at


def end_of_group(path, tokens, at):
    """Where the bracket that opens at `at` closes."""
    depth = 0
    for place in range(at, len(tokens)):
        token = tokens[place]
        if token.kind == "mark":
            depth += (token.text in OPEN) - (token.text in CLOSE)
            if not depth:
                return place
    raise Refusal(path, tokens[at].line, "a bracket that does not close")
