"""How a source is laid out after something went: as rustfmt has empty lines and braces, so that no other program has to be there."""
import re

from tokens import Token

# A comment that speaks of the proof: what it says instead.
SPOKEN = re.compile(r"// Called for its clause.*", re.S)
INSTEAD = "// (The proof needs this call, and nothing else does.)"
# A link to another item. Without a feature that item may not be there, so it becomes a name alone.
LINK = re.compile(r"\[`(?:(?:crate|super|Self)::)?((?<=::)[\w:]+|[a-z]\w*::[\w:]+)`\]")


def laid_out(tokens):
    """The tokens without two empty lines in a row, and without one behind an opening or before a closing brace."""
    made = []
    for token in joined(tokens):
        if token.kind == "space":
            lines = token.text.count("\n")
            margin = token.text.rpartition("\n")[2]
            if lines > 1:
                lines = 1 if made and made[-1].text == "{" else 2
            token = Token("space", "\n" * lines + margin if lines else token.text, token.line)
        elif token.text == "}" and made and made[-1].text.startswith("\n\n"):
            made[-1] = Token("space", made[-1].text[1:], token.line)
        if token.kind == "comment":
            token = Token("comment", INSTEAD if SPOKEN.match(token.text) else LINK.sub(r"`\1`", token.text), token.line)
        made.append(token)
    while made and made[-1].kind == "space":
        made.pop()
    while made and made[0].kind == "space":
        made.pop(0)
    return [*made, Token("space", "\n", 0)] if made else []


def joined(tokens):
    """The tokens with spaces in a row as one. What went leaves a line's end, if it was alone on its line."""
    made = []
    for token in tokens:
        if token.kind == "space" and made and made[-1].kind == "space":
            made[-1] = Token("space", made[-1].text + token.text, token.line)
        else:
            made.append(token)
    return made
