"""Which crates, and which modules of crates, become which modules of the crate `fustrelan`, and its files."""
import functools
import os
import re

from attributes import without_tactics
from ghosts import without_proofs
from imports import Known, without_unused
from items import with_items
from laws import FILE, laws_in, without_laws
from layout import laid_out
from modules import with_modules, with_shared_macros
from refusal import Refusal
from tokens import Token, code_before, text_of, tokens_of
from unread import with_underscores
from words import Words

MODULES = {
    "dfu_wire": "wire", "dfu_suffix": "suffix", "dfu_slots": "slots", "dfu_device": "device", "dfu_host": "host", "dfu_asks": "asks",
    "dfu_boot": "boot", "dfu_home": "home", "dfu_places": "places",
    "dfu_formats::memory": "dfuse::memory", "dfuse_host": "dfuse::session", "dfu_formats::dfuse": "dfuse::file",
    "dfu_formats::images": "formats", "dfu_conformance": "conformance", "dfu_conformance::dfuse": "dfuse_conformance",
}
# Modules of a crate that become modules apart from it, here or in the program (workspace.py).
APART = ("dfu_conformance::captures", "dfu_conformance::dfuse", "dfu_formats::dfuse", "dfu_formats::images", "dfu_formats::memory")
# What is written by hand: the head of the crate, and the modules that only have modules.
FRAME = os.path.join(os.path.dirname(__file__), "frame")
# The name of Cargo.toml there: cargo looks for a package at every Cargo.toml of a repository, and has to find one alone.
MANIFEST = "manifest.toml"
# The first source of a library and of a program.
HEADS = ("lib.rt", "main.rt")
# The module of memory, until the names of the crates become modules.
MEMORY = "fustrelan_memory"


def ends_early(step):
    """A step that looks for a sign behind the last one of a source refuses it."""
    @functools.wraps(step)
    def checked(source, *words):
        try:
            return step(source, *words)
        except IndexError:
            raise Refusal(source.path, source.lines, "the source ends too early") from None
    return checked


class Source:
    """A file of a crate, or of a module that lies apart from its crate and whose head is named lib.rt too, as tokens of plain Rust."""

    def __init__(self, crate, name, text):
        self.crate, self.name = crate, name
        folder, _, module = crate.partition("::")
        place = f"{module}.rt" if name == "lib.rt" else f"{module}/{name}"
        self.path = f"crates/{folder}/src/{place if module else name}"
        self.tokens = tokens_of(self.path, text)
        self.lines = text.count("\n")
        self.takes_memory = False

    def macros(self):
        """The names of the macros that it defines."""
        return set(re.findall(r"macro_rules!\s*(\w+)", text_of(self.tokens)))

    @ends_early
    def erase(self, macros, memory, kept=frozenset(), allowed=frozenset(), system=None):
        tokens = without_laws(self.path, with_shared_macros(self.path, self.tokens))
        tokens = without_proofs(self.path, tokens)
        tokens = without_tactics(self.path, tokens, kept, system is not None)
        words = Words(self.path, tokens, macros, memory, allowed, system)
        self.tokens = with_items(self.path, words.run())
        self.takes_memory = words.takes_memory

    @ends_early
    def text(self, modules, known):
        tokens = without_unused(self.path, with_underscores(self.path, self.tokens), known)
        for token in tokens:
            if token.text == "Model" and token.kind == "word":
                raise Refusal(self.path, token.line, "Model is left")
        return text_of(laid_out(with_modules(tokens, self.crate, modules)))


def name_in(crate, place):
    """The name of a source within its crate, or within a module that lies apart (APART), by its place in the crate's folder. None if
    it is in another one."""
    crate, _, module = crate.partition("::")
    part, _, rest = place.partition("/")
    if not module:
        return None if f"{crate}::{part.removesuffix('.rt')}" in APART else place
    return "lib.rt" if place == f"{module}.rt" else rest if part == module else None


def sources_of(top, crate):
    """The sources of a crate, or of a module that lies apart, by their names, without its laws."""
    owner, _, module = crate.partition("::")
    folder, found = os.path.join(top, "crates", owner, "src"), []
    if not any(os.path.exists(os.path.join(folder, head)) for head in ((f"{module}.rt",) if module else HEADS)):
        raise Refusal(Source(crate, "lib.rt", "").path, 1, "there is no such crate")
    for place, folders, names in os.walk(folder):
        folders.sort()
        for path in sorted(os.path.join(place, it) for it in names):
            if not path.endswith(".rt"):
                raise Refusal(path, 1, "a source that is no .rt")
            name = name_in(crate, os.path.relpath(path, folder))
            if name is None:
                continue
            with open(path, encoding="utf-8") as file:
                source = Source(crate, name, file.read())
            if os.path.basename(source.name) == FILE:
                laws_in(source.path, source.tokens)
            else:
                found.append(source)
    return found


def erased(top, crates, memory, kept=frozenset(), allowed=frozenset()):
    """The sources of the crates in plain Rust, and what they declare."""
    sources = [it for crate in crates for it in sources_of(top, crate)]
    macros = set().union(*(it.macros() for it in sources))
    known = Known()
    for source in sources:
        source.erase(macros, memory, kept, allowed)
        known.add(source.path, source.tokens)
    return sources, known


def with_features(source, gates):
    """The tokens of a lib.rt, with a feature before each module that `gates` names and before what is used of it."""
    made = []
    for at, token in enumerate(source.tokens):
        if token.kind == "word" and token.text in ("mod", "use"):
            name = source.tokens[at + 2].text
            if name in gates:
                place = len(made)
                while code_before(made, place) >= 0 and made[code_before(made, place)].text in ("pub", "(", "crate", ")"):
                    place = code_before(made, place)
                made.insert(place, Token("attribute", f'#[cfg(feature = "{gates[name]}")]\n', token.line))
        made.append(token)
    return made


def with_memory(tokens):
    """The tokens of a source that takes memory, in which `Vec` is that of the module of memory."""
    if not any(it.kind == "word" and it.text == "Vec" for it in tokens):
        return tokens
    for at, token in enumerate(tokens):
        if token.text == MEMORY:
            end = at
            while tokens[end].text != ";":
                end += 1
            names = sorted({"Vec", *(it.text for it in tokens[at + 1:end] if it.kind == "word")})
            return [*tokens[:at], *tokens_of("", f"{MEMORY}::{{{', '.join(names)}}}"), *tokens[end:]]
    first = next(at for at, token in enumerate(tokens) if token.text == "use")
    return [*tokens[:first], *tokens_of("", f"use {MEMORY}::Vec;\n"), *tokens[first:]]


def files_of(top):
    """The files of src/ by their names."""
    sources, known = erased(top, MODULES, MEMORY)
    modules = {crate: f"crate::{module}" for crate, module in {**MODULES, MEMORY: "memory"}.items()}
    gates = {crate: {} for crate in MODULES}
    for source in sources:
        if source.takes_memory and source.name != "lib.rt" and MODULES[source.crate] != "formats":
            gates[source.crate][source.name[:-3]] = "std"
    found = {}
    for source in sources:
        if source.name == "lib.rt":
            source.tokens = with_features(source, gates[source.crate])
        elif source.takes_memory:
            source.tokens = with_memory(source.tokens)
        place = MODULES[source.crate].replace("::", "/")
        name = f"{place}.rs" if source.name == "lib.rt" else f"{place}/{source.name[:-3]}.rs"
        found[name] = f"// Of {source.path}, whose contracts are taken away.\n\n{source.text(modules, known)}"
    return found


def framed(files, frame):
    """The files, and those of a folder that are written by hand."""
    for folder, _, names in os.walk(frame):
        for name in names:
            path = os.path.join(folder, name)
            with open(path, encoding="utf-8") as file:
                place = os.path.join(folder, "Cargo.toml" if name == MANIFEST else name)
                files[os.path.relpath(place, frame)] = file.read()
    return files


def package_of(top):
    """The files of the package by their names."""
    return framed({f"src/{name}": text for name, text in files_of(top).items()}, FRAME)


def write(files, out):
    """Writes files into a folder that is not there: how many."""
    for name, text in files.items():
        path = os.path.join(out, name)
        os.makedirs(os.path.dirname(path), exist_ok=True)
        with open(path, "x", encoding="utf-8") as file:
            file.write(text)
    return len(files)
