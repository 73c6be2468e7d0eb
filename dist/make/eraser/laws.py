"""Laws: a file laws.rt has functions that do nothing, and whose contracts are proved. The file goes, and so do the calls."""
from refusal import Refusal
from tokens import code_before, end_of_group, next_code

FILE = "laws.rt"
NAME = "laws"


def laws_in(path, tokens):
    """The names of the functions of a file of laws: each returns nothing, changes no argument, and only calls others."""
    names, at = [], 0
    while at < len(tokens):
        token = tokens[at]
        if token.text in ("->", "mut", "=", "impl", "trait", "static", "const", "!"):
            raise Refusal(path, token.line, f"a law only calls other laws, and has no {token.text}")
        if token.text == "use":
            while tokens[at].text != ";":
                at += 1
        if token.text == "fn":
            names.append(tokens[next_code(tokens, at + 1)].text)
        at += 1
    return names


def without_laws(path, tokens):
    """The tokens without the module of laws, the uses of its functions, and the calls of those."""
    made, names, at = [], set(), 0
    while at < len(tokens):
        end = end_of_law_item(tokens, at, names)
        if end is None and is_branch(tokens, at):
            at = next_code(tokens, next_code(tokens, at + 1) + 1)
            continue
        if end is None and tokens[at].text in names and tokens[at].kind == "word":
            end = end_of_call(path, tokens, at)
            drop_comments(made)
        if end is None:
            made.append(tokens[at])
        else:
            while made and made[-1].kind == "space":
                made.pop()
            at = end
        at += 1
    return made


def end_of_law_item(tokens, at, names):
    """Where `mod laws;` or `use ..::laws::..;` ends that begins here, whose names are noted; or None."""
    start = at
    if tokens[at].text == "pub":
        start = next_code(tokens, at + 1)
    elif code_before(tokens, at) >= 0 and tokens[code_before(tokens, at)].text == "pub":
        return None
    if tokens[start].text not in ("mod", "use"):
        return None
    end = start
    while tokens[end].text != ";":
        end += 1
    words = [it.text for it in tokens[start + 1:end] if it.is_code()]
    if tokens[start].text == "mod":
        return end if words == [NAME] else None
    if NAME not in words[2:3]:
        return None
    names |= {it for it in words[3:] if it.isidentifier()}
    return end


def is_branch(tokens, at):
    """Whether `laws` stands here in the braces of a use, with a comma behind it."""
    if tokens[at].text != NAME or tokens[at].kind != "word":
        return False
    begin = at
    while begin > 0 and tokens[begin].text not in (";", "use"):
        begin -= 1
    around = tokens[code_before(tokens, at)].text, tokens[next_code(tokens, at + 1)].text
    return tokens[begin].text == "use" and around in ((",", ","), ("{", ","))


def end_of_call(path, tokens, at):
    """Where the call of a law ends, which is a statement of its own, and whose arguments call nothing."""
    before, after = code_before(tokens, at), next_code(tokens, at + 1)
    if tokens[before].text not in (";", "{", "}") or tokens[after].text != "(":
        raise Refusal(path, tokens[at].line, f"{tokens[at].text} is a law, and this use of it is unknown")
    end = end_of_group(path, tokens, after)
    inside = {it.text for it in tokens[after + 1:end]}
    last = next_code(tokens, end + 1)
    if inside & {"(", "{", "?", "="} or tokens[last].text != ";":
        raise Refusal(path, tokens[at].line, f"{tokens[at].text} is a law, and this use of it is unknown")
    return last


def drop_comments(made):
    """Takes back the comments right above a call."""
    while len(made) > 1 and made[-1].kind == "space" and made[-2].kind == "comment" and made[-1].text.count("\n") == 1:
        del made[-2:]
