"""The crates as modules of one crate: their names in paths and in comments become its modules."""
import re

from tokens import Token, code_before, end_of_group, next_code


def with_modules(tokens, crate, modules):
    """The tokens of a source of `crate`, whose `crate::` and whose names of other crates are paths of `modules`."""
    made, at = [], 0
    owner = crate.partition("::")[0]
    while at < len(tokens):
        token, end = tokens[at], at
        if token.kind == "comment":
            token = Token("comment", in_comment(token.text, owner, modules), token.line)
        elif token.kind == "word" and is_first(tokens, at):
            name, end = name_at(tokens, at, owner, modules)
            macro = code_before(tokens, at)
            if name and macro >= 0 and tokens[macro].text == "$" and not name.startswith("crate"):
                name = name.partition("::")[2]
            token = Token("word", name, token.line) if name else token
        made.append(token)
        at = end + 1
    return made


def name_at(tokens, at, owner, modules):
    """What the first word of a path becomes, or that with the one behind it, if they name a module that lies apart; or None. And where
    what it stands for ends."""
    word = owner if tokens[at].text == "crate" else tokens[at].text
    if [it.text for it in tokens[at + 1:at + 2]] == ["::"] and f"{word}::{tokens[at + 2].text}" in modules:
        return modules[f"{word}::{tokens[at + 2].text}"], at + 2
    return modules.get(word), at


def in_comment(text, crate, modules):
    """A comment that names a crate names the module, and one that names a file of the proofs says of which crate."""
    text = re.sub(r"\b[a-z]\w*(::[a-z]\w*)?", lambda it: short(it[0], modules) or (short(it[0].partition("::")[0], modules) or
                  it[0].partition("::")[0]) + (it[1] or ""), text)
    return re.sub(r"(?<![\w/])(?=(specs|proofs)/\w+\.antt)", f"crates/{crate}/", text)


def short(name, modules):
    """The module that stands for a name, in its own package; or nothing."""
    return modules.get(name, "").partition("::")[2]


def is_first(tokens, at):
    """Whether a word is the first of a path, or of `use .. as ..`."""
    before, after = code_before(tokens, at), next_code(tokens, at + 1)
    if before >= 0 and tokens[before].text in ("::", "."):
        return False
    return after < len(tokens) and tokens[after].text in ("::", "as")


# Exported macros that only a module of a feature calls, with the feature.
FEATURES = {"variant_name": "host"}


def with_shared_macros(path, tokens):
    """The tokens in which a macro that is exported is one of the crate: the attribute goes, and a use behind the macro takes its place.
    Both have the feature of the one module that calls it, if FEATURES has the macro."""
    made, at, is_shared = [], 0, False
    while at < len(tokens):
        if [it.text for it in tokens[at:at + 4]] == ["#", "[", "macro_export", "]"]:
            at, is_shared = at + 5, True
        if is_shared and tokens[at].text == "macro_rules":
            name = tokens[next_code(tokens, at + 2)].text
            end = end_of_group(path, tokens, next_code(tokens, next_code(tokens, at + 2) + 1))
            feature = f'#[cfg(feature = "{FEATURES[name]}")]\n' if name in FEATURES else ""
            made.append(Token("word", feature, tokens[at].line))
            made += [*tokens[at:end + 1], Token("word", f"\n\n{feature}pub(crate) use {name};", tokens[end].line)]
            at, is_shared = end + 1, False
        made.append(tokens[at])
        at += 1
    return made
