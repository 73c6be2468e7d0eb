"""Single items and words, named here by hand: items that only contracts name go, and modules that lie apart, those that need a feature get it, and words that Rust
lacks become others."""
from ghosts import drop_space
from refusal import Refusal
from tokens import Token, code_before, tokens_of

# By file: the words that an item begins with, behind `pub`, and the feature that it needs, or None if it goes.
ITEMS = {
    "crates/dfu_slots/src/layout.rt": {"const CLOSED_GATE": None},
    "crates/dfu_conformance/src/lib.rt": {"mod captures": None, "mod dfuse": None},
    "crates/dfu_formats/src/dfuse.rt": {"use listing :: list": "formats"},
    "crates/dfu_formats/src/dfuse/listing.rt": {"fn list": "formats"},
}

# By file: words that Rust has in no stable form, and those that stand for them.
WORDS = {
    "crates/dfu_cmd/src/main.rt": {"fn main": "pub fn main"},
    "crates/dfu_fs/src/reasons.rt": {'"{error}"': '"{}", io::reason(error)'},
    "crates/dfu_fs/src/destination.rt": {"Error :: from ( ErrorKind :: FilesystemLoop )": "too_many_links()"},
}


def with_items(path, tokens):
    """The tokens of a source with its items and words as the tables say. Each is there once."""
    for words, new in WORDS.get(path, {}).items():
        wanted = words.split()
        first = place_of(path, tokens, words)
        last = first
        while len([it for it in tokens[first:last] if it.is_code()]) < len(wanted):
            last += 1
        tokens = [*tokens[:first], *tokens_of(path, new), *tokens[last:]]
    for words, feature in ITEMS.get(path, {}).items():
        first = place_of(path, tokens, words)
        while code_before(tokens, first) >= 0 and tokens[code_before(tokens, first)].text in ("pub", "(", "crate", ")"):
            first = code_before(tokens, first)
        if feature:
            tokens = [*tokens[:first], *tokens_of(path, f'#[cfg(feature = "{feature}")]\n'), *tokens[first:]]
        else:
            tokens = without(tokens, first)
    return tokens


def place_of(path, tokens, words):
    """The only place at which these words begin. If there is none, or a second one, it is refused."""
    places = [at for at in range(len(tokens)) if begins(tokens, at, words.split())]
    if len(places) != 1:
        raise Refusal(path, 1, f"`{words}` is there {len(places)} times, and not once")
    return places[0]


def begins(tokens, at, wanted):
    """Tells if the code at a place begins with these words; blanks and comments between them do not count."""
    found = [it.text for it in tokens[at:at + 2 * len(wanted)] if it.is_code()][:len(wanted)]
    return found == wanted and tokens[at].is_code()


def without(tokens, first):
    """The tokens without the item that begins at a place and ends with a semicolon, and without its docstring."""
    end = first
    while tokens[end].text != ";":
        end += 1
    made = tokens[:first]
    drop_space(made, with_comments=True)
    return made + tokens[end + 1:]
