"""The program `dfu` in plain Rust: its crates become modules of one package, beside the package `fustrelan`, in a workspace for cargo."""
import os

import package
from imports import Known, uses
from tokens import tokens_of

# The crates dfu_laws and dfuse_link have laws alone, so that nothing of them is left.
MODULES = {
    "dfu_sim": "sim", "dfu_link": "link", "dfu_conformance::captures": "pcap", "dfu_output": "output", "dfu_args": "words", "dfu_fs": "files",
    "dfu_plan": "plan", "dfu_cmd": "command", "dfu_examples": "callers",
}
# What is written by hand: the head of the package, the entry of the program, and what it asks of the system.
FRAME = os.path.join(os.path.dirname(__file__), "program")
# What a list of the library can do in a program too.
LISTS = "of_programs"
# The module of the system, until the names of the crates become modules; and packages of cargo that are called over it.
SYSTEM = "fustrelan_system"
OVER_SYSTEM = ("clap", "hex")
# What a source names without a path in Rattle, and has to import in Rust.
PRELUDE = ("AllocGlobal", "Eprint", "HostRuntime", "Input", "Print", "String", "ToText", "Vec")
# A source that gives one of these names to something of its own.
OTHERS = {"crates/dfu_fs/src/json/name.rt": {"String"}}
# Methods by which a source uses a trait of the system that it does not name.
METHODS = {
    "AllocGlobal": {"alloc"}, "Env": {"arg"}, "Eprint": {"eprint"}, "Input": {"reader"}, "Print": {"print"}, "ToText": {"to_string"},
    "IsTerminal": {"is_terminal"}, "MetadataExt": {"dev", "ino", "uid", "gid", "mode"}, "OpenFile": {"sync_all", "set_permissions"},
    "OpenOptionsExt": {"mode"}, "PermissionsExt": {"from_mode"},
}
ALLOWED = frozenset({"HostRuntime", "String"})


def imported(path, tokens):
    """The tokens of a source with an import before its first item: of what it names of the prelude, or calls of its traits."""
    code = [it for it in tokens if it.is_code()]
    own = {it.text for begin, end in uses(tokens) for it in tokens[begin:end]} | OTHERS.get(path, set())
    named = {it.text for before, it in zip(code, code[1:]) if it.kind == "word" and before.text != "::"}
    called = {it.text for before, it, after in zip(code, code[1:], code[2:]) if before.text == "." and after.text == "("}
    names = [it for it in PRELUDE if it not in own and (it in named or METHODS.get(it, set()) & called)]
    if not names:
        return tokens
    first = 0
    while tokens[first].kind in ("space", "comment") and not tokens[first].text.startswith("///"):
        first += 1
    path = names[0] if len(names) == 1 else f"{{{', '.join(names)}}}"
    return [*tokens[:first], *tokens_of("", f"use {SYSTEM}::prelude::{path};\n"), *tokens[first:]]


def paths():
    """The path of each crate's module, and of those of the system."""
    libraries = {**package.MODULES, package.MEMORY: "memory"}
    own = {**MODULES, SYSTEM: "system", **{it: f"system::{it}" for it in OVER_SYSTEM}}
    return {it: f"fustrelan::{module}" for it, module in libraries.items()} | {it: f"crate::{module}" for it, module in own.items()}


def files_of(top):
    """The files of the package's src/ that are made, by their names."""
    libraries = package.erased(top, package.MODULES, package.MEMORY)[1]
    known = Known()
    known.methods = {**libraries.methods, **METHODS}
    known.macros = dict(libraries.macros)
    sources = [it for crate in MODULES for it in package.sources_of(top, crate)]
    macros = set().union(*(it.macros() for it in sources))
    for source in sources:
        source.erase(macros, SYSTEM, frozenset(), ALLOWED, SYSTEM)
        source.tokens = imported(source.path, source.tokens)
        known.add(source.path, source.tokens)
    modules, found = paths(), {}
    for source in sources:
        place = MODULES[source.crate]
        name = f"{place}.rs" if source.name in package.HEADS else f"{place}/{source.name[:-3]}.rs"
        found[name] = f"// Of {source.path}, whose contracts are taken away.\n\n{source.text(modules, known)}"
    return found


def workspace_of(top):
    """The files of the workspace by their names: `fustrelan` as it is, but that a list can do more, and the program `dfu`."""
    files = {f"fustrelan/{name}": text for name, text in package.package_of(top).items()}
    files["fustrelan/src/memory.rs"] += f"\nmod {LISTS};\n"
    own = package.framed({f"src/{name}": text for name, text in files_of(top).items()}, FRAME)
    files[f"fustrelan/src/memory/{LISTS}.rs"] = own.pop(f"{LISTS}.rs")
    files["Cargo.toml"] = own.pop("workspace.toml")
    return files | {f"dfu/{name}": text for name, text in own.items()}
