"""Words that mean something else in Rust, or that Rust lacks: macros, paths of std, `Drop` as a bound; and words that are refused."""
import re

from refusal import Refusal
from tokens import Token, code_before, next_code

# Macros that Rust has in the same form. Those of the crates are known by their macro_rules.
MACROS = {"macro_rules", "debug_assert", "matches", "unreachable", "stringify", "concat", "write", "writeln"}
PROVED = {"prove": "debug_assert", "prove_eq": "debug_assert_eq", "prove_ne": "debug_assert_ne"}
# Modules of Rattle's std that are of Rust's core, in the same form.
CORE = {"array", "ascii", "cell", "cmp", "convert", "fmt", "iter", "marker", "mem", "num", "ops", "option", "result", "slice", "str"}
# What takes memory, or reads and writes: a small module of the crate has the first, as calls that may refuse; Rust's std the second.
MEMORY, STREAMS = "alloc", "io"
# Methods that take a range as a part of a slice, and not as an iterator.
SLICING = {"get", "get_mut"}
# Of a program: the modules of Rattle's std that stand by hand in a module of its own, and the macros that take memory.
SYSTEM = {MEMORY, STREAMS, "env", "fs", "os", "process", "rt"}
MAKING = {"format"}
REFUSED = {"async", "await", "dyn", "extern", "final", "union", "unsafe", "forever", "HostRuntime", "ToVec", "String", "Box", "Rc"}


class Words:
    """Goes through the words of one source."""

    def __init__(self, path, tokens, macros, memory, allowed=frozenset(), system=None):
        self.path, self.tokens, self.macros = path, tokens, MACROS | macros
        self.paths = {MEMORY: memory, STREAMS: "std::io"} if system is None else {name: f"{system}::{name}" for name in SYSTEM}
        self.system = system
        self.refused = REFUSED - allowed
        self.made = []
        self.takes_memory = False

    def refuse(self, at, why):
        raise Refusal(self.path, self.tokens[at].line, why)

    def run(self):
        at = 0
        while at < len(self.tokens):
            token = self.tokens[at]
            if token.kind != "word":
                if token.text == "..":
                    self.range(at)
                self.made.append(token)
            elif token.text == "std":
                at = self.std(at)
            elif token.text == "Drop":
                at = self.bound(at)
            elif token.text in ("fmt", "Formatter"):
                at = self.writer(at)
            elif self.is_macro(at):
                self.macro(at)
            elif token.text == "clone" and self.made[-1].text == ".":
                self.refuse(at, "a clone, which in Rattle may be refused, and gives another type")
            elif token.text in self.refused:
                self.refuse(at, f"a word that the eraser does not know: {token.text}")
            else:
                self.takes_memory |= token.text == "Vec"
                self.made.append(token)
            at += 1
        return self.made

    def put(self, at, text):
        self.made.append(Token("word", text, self.tokens[at].line))

    def put_path(self, at, path):
        for text in re.findall(r"\w+|::", path):
            self.made.append(Token("mark" if text == "::" else "word", text, self.tokens[at].line))

    def is_macro(self, at):
        return self.tokens[at + 1:at + 2] and self.tokens[at + 1].text == "!" and self.tokens[at].text not in ("if", "return", "in")

    def macro(self, at):
        name = self.tokens[at].text
        if self.system and name in MAKING:
            self.put_path(at, f"{self.system}::{name}")
            return
        if name not in self.macros and name not in PROVED:
            self.refuse(at, f"a macro that the eraser does not know: {name}!")
        self.put(at, PROVED.get(name, name))

    def range(self, at):
        """A range without an end, outside of brackets: at the top of its type it ends in Rattle, and overflows in Rust."""
        before, after = code_before(self.tokens, at), next_code(self.tokens, at + 1)
        if self.tokens[after].text == ")" and self.called(at) in SLICING:
            return
        if self.tokens[after].text in (")", "{", ";") and self.tokens[before].text not in ("(", ",", "{"):
            self.refuse(at, "a range without an end, outside of brackets")

    def called(self, at):
        """The name before the parenthesis that is open at a place, or ''."""
        depth = 0
        while at > 0 and depth <= 0:
            at -= 1
            depth += {"(": 1, ")": -1}.get(self.tokens[at].text, 0)
        return self.tokens[code_before(self.tokens, at)].text if depth > 0 else ""

    def std(self, at):
        """`std::x`: where the last word of it is."""
        last = next_code(self.tokens, next_code(self.tokens, at + 1) + 1)
        if last >= len(self.tokens) or self.tokens[next_code(self.tokens, at + 1)].text != "::":
            self.refuse(at, "std without a path")
        name = self.tokens[last].text
        if name in CORE:
            self.put(at, f"core::{name}")
        elif name in self.paths:
            self.takes_memory = True
            self.put_path(at, self.paths[name])
        else:
            self.refuse(at, f"a path of std that the eraser does not know: std::{name}")
        return last

    def writer(self, at):
        """`fn fmt<W: fmt::Write>(&self, f: &mut fmt::Formatter<W>)`: in Rust a formatter has no parameter for what it writes to."""
        end, name = at, self.tokens[at].text
        self.made.append(self.tokens[at])
        before, texts = code_before(self.tokens, at), [it.text for it in self.tokens[at + 1:at + 8]]
        if name == "fmt" and before >= 0 and self.tokens[before].text == "fn":
            if texts[0] == "(":
                return at
            if texts != ["<", "W", ":", " ", "fmt", "::", "Write"] or self.tokens[at + 8].text != ">":
                self.refuse(at, "a function fmt that the eraser does not know")
            end = at + 8
        elif name == "Formatter":
            if texts[:3] != ["<", "W", ">"]:
                self.refuse(at, "a formatter that the eraser does not know")
            for kind, text in (("mark", "<"), ("lifetime", "'_"), ("mark", ">")):
                self.made.append(Token(kind, text, self.tokens[at].line))
            end = at + 3
        return end

    def bound(self, at):
        """`Drop` as a bound goes, with the plus or the colon that joins it."""
        last = code_before(self.made)
        after = next_code(self.tokens, at + 1)
        joins = self.made[last].text if last >= 0 else ""
        if joins == ":" and self.tokens[after].text == "+":
            return after + (self.tokens[after + 1].kind == "space")
        if joins not in ("+", ":"):
            self.refuse(at, "Drop stands where it is no bound")
        while self.made[last - 1].kind == "space":
            last -= 1
        del self.made[last:]
        return at
