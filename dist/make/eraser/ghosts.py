"""Takes away what is written in the language of the proofs: ghost items, contracts, impls of Model, and those of Debug."""
from duties import duties_of
from refusal import Refusal
from tokens import OPEN, Token, code_before, end_of_group, next_code, tokens_of


def without_proofs(path, tokens):
    """The tokens of plain Rust. A public function that asks something of its caller says so in its docstring, and tests what can be
    tested."""
    made, at, asked, is_left_out = [], 0, [], False
    while at < len(tokens):
        token = tokens[at]
        end = end_of_left_out(path, tokens, at) if token.text == "impl" else None
        if end is not None:
            drop_space(made, with_comments=True)
            at, is_left_out = end, True
        elif token.kind == "ghost":
            drop_ghost(path, made, token)
        elif token.kind == "clause":
            drop_space(made, with_comments=True)
            asked += [token] if token.text.startswith("requires") else []
            after = next_code(tokens, at + 1)
            if after < len(tokens) and tokens[after].kind != "clause":
                ending(path, made, tokens[after], asked)
                at, asked = after, []
        else:
            made.append(token)
        at += 1
    return without_tables(path, made) if is_left_out else made


def without_tables(path, tokens):
    """The tokens without each private `static` that no code names, as the table of names that only an impl of Debug reads."""
    made, at = [], 0
    while at < len(tokens):
        name = tokens[next_code(tokens, at + 1)].text if tokens[at].text == "static" else None
        is_private = code_before(made) < 0 or made[code_before(made)].text in ("}", ";")
        if name and is_private and sum(it.text == name for it in tokens if it.is_code()) == 1:
            drop_space(made, with_comments=True)
            while tokens[at].text != ";":
                at = end_of_group(path, tokens, at) if tokens[at].text in OPEN else at + 1
        else:
            made.append(tokens[at])
        at += 1
    return made


def ending(path, made, after, asked):
    """What follows the last clause of a function: the brace of its body, which comes behind its head, or a semicolon."""
    if after.kind != "mark" or after.text not in ("{", ";"):
        raise Refusal(path, after.line, "neither a body nor a semicolon follows a contract")
    duties = duties_of(path, made, asked, after.text == ";") if asked else []
    if after.text == "{":
        made.append(Token("space", " ", after.line))
    made.append(after)
    made += tokens_of(path, "".join(f"\n{line}" for line in duties))


def drop_space(made, with_comments=False):
    """Takes back the space before what goes; and the comments right above it, up to an empty line."""
    while made and (made[-1].kind == "space" or with_comments and made[-1].kind == "comment"):
        if made[-1].kind == "space" and with_comments and made[-1].text.count("\n") > 1:
            return
        if made[-1].text.startswith("//!"):
            return
        made.pop()


def drop_ghost(path, made, token):
    """A ghost item goes, with `pub` before it and the comment above it. A comment above `ghost use` is of the file, and stays."""
    is_use = token.text.split()[1] == "use"
    last = code_before(made)
    if last >= 0 and made[last].text == "pub":
        if is_use:
            raise Refusal(path, token.line, "an unknown form of ghost")
        del made[last:]
    drop_space(made, with_comments=not is_use)


def end_of_left_out(path, tokens, at):
    """Where an `impl Model for ..` or an `impl fmt::Debug for ..` that begins at `at` ends, or None if it is another impl. One of Model has
    ghost items alone. One of Debug writes what rustc's derive writes, which each type has, and is there because it is proved sooner."""
    brace = at
    while brace < len(tokens) and tokens[brace].text not in ("{", ";"):
        brace += 1
    words = [it.text for it in tokens[at:brace] if it.is_code()]
    before = words[words.index("for") - 1] if "for" in words else None
    if before not in ("Model", "Debug"):
        return None
    end = end_of_group(path, tokens, brace)
    for token in tokens[brace + 1:end] if before == "Model" else ():
        if token.is_code() and token.kind != "ghost":
            raise Refusal(path, token.line, "an impl of Model with code")
    return end
