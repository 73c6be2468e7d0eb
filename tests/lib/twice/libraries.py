#!/usr/bin/env python3
"""libraries.py TOP RUST FOLDER: the libraries for C in plain Rust, over the package RUST, as a package for cargo in FOLDER.

Each call of C's headers is there with r_ before its name, so that it links beside that of dist/*.c. Nobody in Rust needs them, so they are
made here alone. A slice is a pointer and a length in C, and is made of these two."""
import os
import re
import sys

TOP, RUST, FOLDER = sys.argv[1:]
sys.path.insert(0, os.path.join(TOP, "dist", "make", "eraser"))
import package  # noqa: E402

CRATES = {"dfu_core": "shared", "dfu_device_c": "device", "dfu_host_core": "session", "dfu_host_c": "host", "dfu_boot_c": "boot"}
MANIFEST = f"""[package]
name = "twice"
version = "0.0.0"
edition = "2024"

[lib]
crate-type = ["staticlib"]

[dependencies]
fustrelan = {{ path = "{os.path.abspath(RUST)}", default-features = false, features = ["device", "host", "dfuse", "formats"] }}
arrayvec = {{ version = "0.7", default-features = false }}
byteorder = {{ version = "1", default-features = false }}

# What a proof rules out ends the program.
[profile.release]
panic = "abort"
overflow-checks = true
debug-assertions = true

[workspace]
"""
HEAD = """//! The libraries for C, in plain Rust. What panics says so and ends the program.
#![allow(unused)]

"""
CALL = re.compile(r'#\[unsafe\(no_mangle\)\]\npub extern "C" fn (\w+)((?:<[^>]*>)?)\(([^)]*)\)([^{]*)(\{.*?^\}\n)', re.M | re.S)
SLICE = re.compile(r"&(?:'\w+ )?(mut )?\[(\w+(?:<[^>]*>)?)\]")


def for_c(found):
    """A call of C's header, and the function that it calls."""
    name, lives, params, result, body = found.groups()
    outer, inner = [], []
    for param in [it.strip() for it in params.split(",") if it.strip()]:
        word, kind = [it.strip() for it in param.split(":", 1)]
        parts = SLICE.fullmatch(kind)
        if parts:
            is_changed = bool(parts[1])
            outer += [f"{word}: *{'mut' if is_changed else 'const'} {parts[2]}", f"{word}_len: usize"]
            of_parts = f"core::slice::from_raw_parts{'_mut' if is_changed else ''}({word}, {word}_len)"
            inner.append(f"if {word}_len == 0 {{ &{'mut ' if is_changed else ''}[] }} else {{ unsafe {{ {of_parts} }} }}")
        else:
            outer.append(f"{word}: {kind}")
            inner.append(word)
    return (f'pub fn {name}{lives}({params}){result}{body}\n#[unsafe(export_name = "r_{name}")]\n'
            f'unsafe extern "C" fn c_{name}{lives}({", ".join(outer)}){result}{{\n    {name}({", ".join(inner)})\n}}\n')


def write(name, text):
    path = os.path.join(FOLDER, name)
    os.makedirs(os.path.dirname(path), exist_ok=True)
    with open(path, "w", encoding="utf-8") as file:
        file.write(text)


def main():
    modules = {**{crate: f"fustrelan::{it}" for crate, it in package.MODULES.items()}, **{it: f"crate::{of}" for it, of in CRATES.items()}}
    sources, known = package.erased(TOP, CRATES, "no_memory", frozenset({"unsafe"}), frozenset({"extern"}))
    for source in sources:
        place = CRATES[source.crate]
        name = f"{place}.rs" if source.name == "lib.rt" else f"{place}/{source.name[:-3]}.rs"
        text = source.text(modules, known)
        made = CALL.sub(for_c, text)
        if "no_mangle" in made:
            sys.exit(f"{source.path}: a call for C of another form")
        write(f"src/{name}", made)
    write("src/lib.rs", HEAD + "".join(f"pub mod {it};\n" for it in CRATES.values()))
    write("Cargo.toml", MANIFEST)


main()
