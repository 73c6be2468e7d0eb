"""What tests/dist/eraser plants in sources, and what is to become of it."""

# Behind the last line: what it is, the lines, which of them is named, and a word of the reason.
ITEMS = [
    ("a test", "#[test]\nfn f() {}", 1, "attribute"),
    ("a configuration", "#[cfg(unix)]\nfn f() {}", 1, "attribute"),
    ("an allowance", "#[allow(dead_code)]\nfn f() {}", 1, "attribute"),
    ("an attribute of the crate", "#![feature(never_type)]", 1, "attribute"),
    ("an attribute within one", "#[cfg_attr(unix, inline)]\nfn f() {}", 1, "attribute"),
    ("a sign without an attribute", "# fn f() {}", 1, "attribute"),
    ("an attribute that does not close", "fn f() {}\n#[inline(always)", 2, "does not close"),
    ("another derive", "#[derive(Clone, Serialize)]\nstruct S;", 1, "derive that the eraser does not know: Serialize"),
    ("a drop that is written", "impl Drop for S {}", 1, "Drop"),
    ("a drop that is called", "fn f(s: S) { Drop::drop(s) }", 1, "Drop"),
    ("a union", "union U { a: u8 }", 1, "union"),
    ("what waits", "async fn f() {}", 1, "async"),
    ("a function of C", 'extern "C" fn f() {}', 1, "extern"),
    ("unsafe code", "unsafe fn f() {}", 1, "unsafe"),
    ("a type at run time", "fn f(x: &dyn Medium) {}", 1, "dyn"),
    ("a handle", "fn f(rt: HostRuntime) {}", 1, "HostRuntime"),
    ("a text that takes memory", "fn f(x: String) {}", 1, "String"),
    ("a box", "fn f(x: Box<u8>) {}", 1, "Box"),
    ("a model with code", "impl Model for S {\n    ghost view = { 1 };\n    fn f() {}\n}", 3, "Model"),
    ("a model as a bound", "fn f<S: Model>(s: S) {}", 1, "Model is left"),
    ("another ghost", "ghost fn f() {}", 1, "ghost"),
    ("a ghost that is public in a use", "pub ghost use A.{b};", 1, "ghost"),
    ("a ghost that does not end", "impl S {\n    ghost view = { a { b }", 2, "does not end"),
    ("a ghost without a comma", "struct S {\n    ghost few: { a }\n    x: u8,\n}", 2, "comma"),
    ("a contract that does not end", "fn f()\n    ensures { a {\n{}", 2, "does not end"),
    ("a contract without a body", "fn f()\n    ensures { a }\nfn g() {}", 3, "neither a body"),
    ("a contract without a block", "fn f()\n    requires (x)\n{}", 2, "block"),
    ("what a caller must keep to, without words", "/// A.\npub fn f(x: u8)\n    requires { x ≤ 77 }\n{}", 3, "x ≤ 77"),
    ("what a caller must keep to, without a docstring", "pub fn f(len: u8)\n    requires { len ≤ self.old.put_end }\n{}", 1, "docstring"),
    ("a sign of the proofs in code", "fn f() -> ℕ {}", 1, "no Rust"),
    ("a use of two kinds", "use crate::{Setup as };", 1, "use"),
    ("a formatter of a type", "fn f(f: &mut fmt::Formatter<File>) {}", 1, "formatter"),
    ("another way to write",
     "impl fmt::Display for S {\n    fn fmt<W: Sink>(&self, f: &mut fmt::Formatter<W>) -> fmt::Result {}\n}", 2, "fmt"),
    ("another macro of a library", "fn f() { panic!() }", 1, "macro that the eraser does not know: panic!"),
]
# Before the first line of a function.
LINES = [
    ("a list that takes memory", "    let v = vec![in alloc; 1]?;", "macro that the eraser does not know: vec!"),
    ("a line that is printed", '    println!(rt; "x")?;', "macro that the eraser does not know: println!"),
    ("an assertion by a handle", "    assert!(rt; number > 0);", "macro that the eraser does not know: assert!"),
    ("a thread", "    std::thread::spawn(|| 1);", "std::thread"),
    ("a file", "    let f = std::fs::File::open(p);", "std::fs"),
    ("a map", "    let m = std::collections::BTreeMap::new();", "std::collections"),
    ("several paths of std", "    use std::{fmt, mem};", "std::{"),
    ("a clone", "    let x = number.clone();", "clone"),
    ("a range without an end", "    for (n, x) in (0u8..).zip(bytes) {}", "range"),
    ("a loop without an end", "    for n in 0u8.. {}", "range"),
    ("a loop by a handle", "    for _ in rt.forever() {}", "forever"),
    ("a law whose result is read", "    let x = one_setup();", "law"),
    ("a law with a call", "    one_setup(f());", "law"),
]
# What stays as it is, before the first line of a function: with the words of the prover in places where they mean nothing.
STAYS = [
    '    let text = "ghost use a; requires { ensures";',
    "    let braces = ['{', '}', '\\'', '#'];",
    '    let raw = r#"{ " requires } "#;',
    "    // ghost use a; requires { b",
    "    /* ensures { */",
    "    let shifted = 1_u32 << 0x1f ^ 0b11;",
    "    let same: &'static str = stringify!(ghost_of);",
    "    let part = &bytes[1..];",
    "    let Setup { kind, .. } = setup;",
    "    #[inline(never)]",
    "    let is = matches!(number, 0 | 2..=9);",
    "    let of = self.dfu_slots::<u8>(a::dfu_slots::B);",
]
# What becomes something else there, and what it becomes; an empty text where it goes.
BECOMES = [
    ("    prove!(number > 0);", "    debug_assert!(number > 0);"),
    ("    let most = std::cmp::max(1, number);", "    let most = core::cmp::max(1, number);"),
    ("    #[rattlefmt::skip]", "    #[rustfmt::skip]"),
    ("    let x = crate::Setup::decode(b);", "    let x = crate::wire::Setup::decode(b);"),
    ("    let x = dfu_slots::OPEN_GATE;", "    let x = crate::slots::OPEN_GATE;"),
    ("    let x = dfu_formats::memory::Map::read(b);", "    let x = crate::dfuse::memory::Map::read(b);"),
    ("    // as `dfu_formats::images` and `dfu_conformance::judge`", "    // as `formats` and `conformance::judge`"),
    ("    // (see dfu_slots)", "    // (see slots)"),
    ("    // (see specs/Setup.antt)", "    // (see crates/dfu_wire/specs/Setup.antt)"),
    ("    // Called for its clause `fits`.", "    // (The proof needs this call, and nothing else does.)"),
    ("    // Called for its law.\n    one_setup();", ""),
    ("    for turn in 0..4 {\n        f(number);\n    }", "    for _turn in 0..4 {\n        f(number);\n    }"),
]
# The same behind the last line.
ITEMS_BECOME = [
    ("fn f<R: Drop>(r: R) {\n    g(r);\n}", "fn f<R>(r: R) {\n    g(r);\n}"),
    ("fn f<R: Drop + Copy>(r: R) {\n    g(r);\n}", "fn f<R: Copy>(r: R) {\n    g(r);\n}"),
    ("// Of all.\nghost use A.{b};\n\nfn f() {}", "// Of all.\n\nfn f() {}"),
    ("#[derive(Drop)]\nstruct S;", "#[derive(Debug, PartialEq, Eq)]\nstruct S;"),
    ("#[derive(Clone, Drop, Debug)]\nstruct S;", "#[derive(Clone, Debug, PartialEq, Eq)]\nstruct S;"),
    ("#[derive(Eq, Error, PartialEq)]\nstruct S;", "#[derive(Debug, PartialEq, Eq, Error)]\nstruct S;"),
    ("#[tactic(auto, using(a::b))]\nfn f() {}", "fn f() {}"),
    ("struct S {\n    // Why.\n    ghost few: { a { b } = c },\n    x: u8,\n}", "struct S {\n    x: u8,\n}"),
    ("// Why.\nimpl Model for S {\n    ghost view = { a };\n}\n\nstruct S;", "struct S;"),
    ("// Why.\nimpl fmt::Debug for S {\n    fn fmt<W: fmt::Write>(&self, f: &mut fmt::Formatter<W>) -> fmt::Result {\n"
     "        static A: [u8; 1] = [1];\n        Ok(())\n    }\n}\n\nstruct S;", "struct S;"),
    ("impl fmt::Debug for S {\n    fn fmt() -> u8 {\n        A[0]\n    }\n}\n\n// Why.\nstatic A: [u8; 1] = [1];\n\nstruct S;",
     "struct S;"),
    ("impl fmt::Debug for S {\n    fn fmt() -> u8 {\n        A[0]\n    }\n}\n\nstatic A: [u8; 1] = [1];\n\nfn f() -> u8 {\n    A[0]\n}",
     "static A: [u8; 1] = [1];\n\nfn f() -> u8 {\n    A[0]\n}"),
    ("fn f(x: u8) -> u8\n    requires a { x ≤ 1 }\n    // Why.\n    ensures * { result ≡ x }\n{\n    x\n}",
     "fn f(x: u8) -> u8 {\n    x\n}"),
    ("trait T {\n    fn f(x: u8)\n        requires { x ≤ 1 };\n}", "trait T {\n    fn f(x: u8);\n}"),
    ("/// A.\npub fn f(limit: usize)\n    requires { limit ≤ 16777216 }\n{\n    g(limit);\n}",
     "/// A.\n///\n/// # What the caller must keep to\n///\n/// - `limit` is at most 16,777,216.\npub fn f(limit: usize) {\n"
     "    debug_assert!(limit <= 16_777_216);\n    g(limit);\n}"),
    ("fn f(x: u8, of_proof: u8) -> u8 {\n    x\n}", "fn f(x: u8, _of_proof: u8) -> u8 {\n    x\n}"),
    ("impl fmt::Display for S {\n    fn fmt<W: fmt::Write>(&self, f: &mut fmt::Formatter<W>) -> fmt::Result {\n"
     "        f.write_str(self.name())\n    }\n}",
     "impl fmt::Display for S {\n    fn fmt(&self, f: &mut fmt::Formatter<'_>) -> fmt::Result {\n"
     "        f.write_str(self.name())\n    }\n}"),
    ("use crate::{Code, Request, Setup};\n\nfn f(x: Setup, y: Request) {\n    g(x, y);\n}",
     "use crate::wire::{Request, Setup};\n\nfn f(x: Setup, y: Request) {\n    g(x, y);\n}"),
]
# In a program, behind the last line: what becomes what. Its system is a module, and what Rattle names without a path is imported.
PROGRAM_BECOMES = [
    ("fn f(rt: &HostRuntime) -> std::io::Result<String> {\n    g(rt.alloc())\n}",
     "fn f(rt: &HostRuntime) -> crate::system::io::Result<String> {\n    g(rt.alloc())\n}"),
    ('fn f(n: u8) {\n    let t = format!(in alloc; "{n}");\n    g(t);\n}',
     'fn f(n: u8) {\n    let t = crate::system::format!(in alloc; "{n}");\n    g(t);\n}'),
    ("fn f(b: &[u8]) {\n    let t = hex::encode(alloc, b);\n    g(t);\n}",
     "fn f(b: &[u8]) {\n    let t = crate::system::hex::encode(alloc, b);\n    g(t);\n}"),
    ("fn f(t: &clap::Error) {\n    dfu_sim::g(dfu_wire::h(t));\n}",
     "fn f(t: &crate::system::clap::Error) {\n    crate::sim::g(fustrelan::wire::h(t));\n}"),
    ("fn f() {\n    'a: loop {\n        g();\n    }\n}", "fn f() {\n    loop {\n        g();\n    }\n}"),
    ("fn f() {\n    'a: loop {\n        break 'a;\n    }\n}", "fn f() {\n    'a: loop {\n        break 'a;\n    }\n}"),
    ("fn f(b: &[u8]) -> Option<&[u8]> {\n    b.get(1..)\n}", "fn f(b: &[u8]) -> Option<&[u8]> {\n    b.get(1..)\n}"),
    ("pub use dfu_sim::{Event, laws, run};", "pub use crate::sim::{Event, run};"),
    ("#[derive(Drop)]\nstruct S;", "struct S;"),
    ("#[derive(Clone, Copy)]\nstruct S;", "#[derive(Clone, Copy, Debug, PartialEq, Eq)]\nstruct S;"),
]
# What a program may not have either: what it is, the line, and a word of the reason.
PROGRAM_REFUSED = [
    ("a thread", "fn f() { std::thread::spawn(|| 1); }", "std::thread"),
    ("a socket", "fn f() { std::net::connect(); }", "std::net"),
    ("unsafe code", "unsafe fn f() {}", "unsafe"),
    ("a clone", "fn f(x: String) { g(x.clone()); }", "clone"),
    ("a list by a macro", "fn f() { g(vec![in alloc; 1]); }", "macro that the eraser does not know: vec!"),
    ("a line that is printed", 'fn f() { println!(rt; "x"); }', "macro that the eraser does not know: println!"),
    ("a range without an end", "fn f() { for n in (0u8..).zip(b) {} }", "range"),
    ("a range as an argument", "fn f() { g((0u8..), b.iter()); }", "range"),
]
# What a source imports of the system: its text, and the names.
IMPORTED = [
    ("fn f(n: u8) {\n    g(n);\n}", ""),
    ("fn f(rt: &R) {\n    rt.alloc();\n}", "use crate::system::prelude::AllocGlobal;\n"),
    ("fn f(alloc: A) -> Vec<String> {\n    alloc.g\n}", "use crate::system::prelude::{String, Vec};\n"),
    ("fn f(name: Name) -> bool {\n    name == Name::String\n}", ""),
    ("use a::{String, b};\n\nfn f(x: String) {\n    b(x);\n}", ""),
]
