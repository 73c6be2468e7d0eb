"""Names that only contracts read: an argument or the counter of a loop that no code names gets the underscore by which Rust knows it, and
the label of a loop that no code names goes."""
import re

from tokens import Token, end_of_group, next_code

# Names of a pattern that a source binds for its contracts alone.
BOUND = {"crates/dfu_link/src/scripting/starting.rt": {"spoilt"}}


def with_underscores(path, tokens):
    """The tokens with an underscore before each such name."""
    tokens = without_labels(tokens)
    made = list(tokens)
    for at, token in enumerate(tokens):
        if token.text in BOUND.get(path, ()):
            made[at] = Token("word", f"_{token.text}", token.line)
        if token.kind == "word" and token.text == "fn":
            places = arguments(path, tokens, at)
        elif token.kind == "word" and token.text == "for" and tokens[next_code(tokens, at + 3)].text == "in":
            places = [next_code(tokens, at + 1)]
        else:
            continue
        body = body_after(path, tokens, places[-1] if places else at)
        for place in places:
            name = tokens[place].text
            if body and name not in body and name[0] != "_":
                made[place] = Token("word", f"_{name}", tokens[place].line)
    return made


def without_labels(tokens):
    """The tokens without each label that stands before a loop and nowhere else."""
    made, at = [], 0
    while at < len(tokens):
        colon = next_code(tokens, at + 1)
        if tokens[at].kind == "lifetime" and colon < len(tokens) and tokens[colon].text == ":":
            after = next_code(tokens, colon + 1)
            named = sum(it.text == tokens[at].text for it in tokens)
            if tokens[after].text in ("loop", "while", "for") and named == 1:
                at = after
                continue
        made.append(tokens[at])
        at += 1
    return made


def arguments(path, tokens, at):
    """Where the names of the arguments of a function stand."""
    opening = at
    while tokens[opening].text != "(":
        opening += 1
    end, depth, found = end_of_group(path, tokens, opening), 0, []
    for place in range(opening, end):
        depth += (tokens[place].text in ("(", "[")) - (tokens[place].text in (")", "]"))
        if depth == 1 and tokens[place].kind == "word" and tokens[next_code(tokens, place + 1)].text == ":":
            found.append(place)
    return found


def body_after(path, tokens, at):
    """The words of the block that follows, also in texts, which may be formats; or None if a semicolon comes first."""
    while tokens[at].text not in ("{", ";"):
        at = end_of_group(path, tokens, at) + 1 if tokens[at].text in ("(", "[") else at + 1
    if tokens[at].text == ";":
        return None
    code = [it.text for it in tokens[at:end_of_group(path, tokens, at)] if it.kind in ("word", "text")]
    return {word for it in code for word in re.findall(r"\w+", it)} | {"self"}
