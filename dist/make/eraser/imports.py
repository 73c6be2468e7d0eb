"""Imports that only contracts needed: they go, so that rustc has nothing to say of them."""
import re

from refusal import Refusal
from tokens import code_before, end_of_group, next_code, tokens_of

# Traits from elsewhere that are imported for their methods, with those methods.
METHODS = {
    "ByteOrder": {"read_u16", "read_u24", "read_u32", "read_u64", "write_u16", "write_u24", "write_u32", "write_u64"},
    "Read": {"read"},
    "Write": {"write_all", "flush", "write_fmt"},
}
# Traits that a source imports for its contracts alone, though it calls a method of that name of another type.
FOR_CONTRACTS = {"crates/dfu_asks/src/candidate.rt": {"Medium"}}
WIDTH = 100


class Tree:
    """A path of a use: its words, and its branches in braces if it has some. In braces `self` is the word before them."""

    def __init__(self, words, branches, alias):
        self.words, self.branches, self.alias, self.around = words, branches, alias, words
        for branch in branches or []:
            branch.around = words

    def name(self):
        """The name that it brings."""
        return self.alias or (self.around[-1] if self.words == ["self"] else self.words[-1])

    def pruned(self, is_used):
        """It without the names that are not used, or None."""
        if self.branches is None:
            return self if self.words[-1] == "*" or is_used(self.name()) else None
        left = [it for it in (branch.pruned(is_used) for branch in self.branches) if it]
        if len(left) == 1 and left[0].branches is None:
            return Tree(self.words + [it for it in left[0].words if it != "self"], None, left[0].alias)
        return Tree(self.words, left, None) if left else None

    def leaves(self):
        return 1 if self.branches is None else sum(it.leaves() for it in self.branches)

    def written(self):
        words = "::".join(self.words)
        if self.branches is not None:
            return f"{words}::{{{', '.join(it.written() for it in self.branches)}}}"
        return f"{words} as {self.alias}" if self.alias else words


def parsed(path, words, line):
    """The tree of a use, of the words and signs before its semicolon. The words that were read are taken from the front."""
    names, alias = [], None
    while words:
        names.append(words.pop(0))
        if words[:1] == ["as"]:
            alias, words[:2] = words[1], []
            names += [] if alias.isidentifier() else [alias]
        if words[:1] != ["::"]:
            break
        words.pop(0)
        if words[:1] == ["{"]:
            return Tree(names, branches_of(path, words, line), None)
    if not names or not all(it == "*" or it.isidentifier() for it in names):
        raise Refusal(path, line, "a use that the eraser does not understand")
    return Tree(names, None, alias)


def branches_of(path, words, line):
    """The branches in braces."""
    branches = []
    while words and words.pop(0) != "}":
        if words[:1] != ["}"]:
            branches.append(parsed(path, words, line))
    return branches


def uses(tokens):
    """The private uses of a source: where each begins and ends."""
    for at, token in enumerate(tokens):
        if token.kind == "word" and token.text == "use":
            before = code_before(tokens, at)
            if before < 0 or tokens[before].text not in ("pub", ")"):
                end = at
                while tokens[end].text != ";":
                    end += 1
                yield at, end


def without_unused(path, tokens, known):
    """The tokens without the names that are imported and that no code names. A trait is used by its methods too, and what a macro names
    by each call of it: `known` has those of the crates."""
    places = list(uses(tokens))
    inside = {at for begin, end in places for at in range(begin, end + 1)}
    code = [it for at, it in enumerate(tokens) if at not in inside and it.kind in ("word", "attribute")]
    named = {word for it in code for word in re.findall(r"\w+", it.text)}
    for macro in named & known.macros.keys():
        named |= known.macros[macro]
    methods = {name: words for name, words in {**METHODS, **known.methods}.items() if name not in FOR_CONTRACTS.get(path, ())}

    def is_used(name):
        return name in named or bool(methods.get(name, set()) & named)

    made = list(tokens)
    for begin, end in reversed(places):
        words = re.findall(r"::|\w+|[{},*]", "".join(it.text if it.is_code() else " " for it in tokens[begin + 1:end]))
        tree = parsed(path, words, tokens[begin].line)
        left = tree.pruned(is_used)
        if left and left.leaves() == tree.leaves():
            continue
        if left:
            made[begin:end + 1] = tokens_of(path, statement(left))
        else:
            while begin > 0 and made[begin - 1].kind == "space":
                begin -= 1
            del made[begin:end + 1]
    return made


def statement(tree):
    """The text of a use; a long list has its names on lines of their own."""
    text = f"use {tree.written()};"
    if len(text) <= WIDTH or tree.branches is None:
        return text
    lines, line = [], "   "
    for branch in tree.branches:
        if len(line) + 2 + len(branch.written()) > WIDTH:
            lines.append(line)
            line = "   "
        line += f" {branch.written()},"
    return "\n".join([f"use {'::'.join(tree.words)}::{{", *lines, line, "};"])


class Known:
    """What the sources declare that makes an import used: the methods of each trait, and the words of each macro."""

    def __init__(self):
        self.methods, self.macros = {}, {}

    def add(self, path, tokens):
        for at, token in enumerate(tokens):
            if token.kind == "word" and token.text in ("trait", "macro_rules"):
                name = next_code(tokens, at + (1 if token.text == "trait" else 2))
                opening = name
                while tokens[opening].text not in ("{", "("):
                    opening += 1
                body = tokens[opening:end_of_group(path, tokens, opening)]
                if token.text == "trait":
                    self.methods[tokens[name].text] = {body[k + 2].text for k, it in enumerate(body) if it.text == "fn"}
                else:
                    self.macros[tokens[name].text] = {it.text for it in body if it.kind == "word"}
