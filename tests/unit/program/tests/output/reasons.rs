//! The reasons of answers: their lines, and the fault beside an exit.

use dfu::output::{add_with_fault, check_with_fault, reason_line};
use fustrelan::memory::Global;
use fustrelan::suffix::{Findings, SuffixFault};
use fustrelan::wire::Ids;
use unit_program::Outcome;
use unit_program::known_files::DIGITS;

#[test]
fn names_the_fault() {
    let mut out = Vec::new();
    let mut file = Vec::new();
    let mut findings = Findings::new();
    let (_, sound) = check_with_fault(Global, &DIGITS[..], &mut out, &mut findings);
    let (_, short) = check_with_fault(Global, &DIGITS[..15], &mut out, &mut findings);
    let ids = Ids {
        device: 1,
        product: 2,
        vendor: 3,
    };
    let (_, twice) = add_with_fault(Global, &DIGITS[..], ids, &mut file, &mut out);
    assert_eq!(sound, None);
    assert_eq!(short, Some(SuffixFault::TooShort));
    assert_eq!(twice, Some(SuffixFault::AlreadySuffixed));
}

/// The reason why, with this word and name before it, is written as this line.
fn shows((word, name, why): (&str, &str, &str), wanted: &str) -> Outcome {
    let line = reason_line(Global, word, name, why)?;
    assert_eq!(line.as_str(), wanted);
    Ok(())
}

#[test]
fn writes_lines() -> Outcome {
    shows(("", "a", "b: c"), "dfu: a: b: c\n")?;
    shows(("OUT ", "-", "d"), "dfu: OUT -: d\n")
}

/// A name, and how it is shown.
#[rustfmt::skip]
static SHOWN: [(&str, &str); 4] = [
    ("", ""),
    ("a\u{1b}[31m\nb\u{9b}\u{fc}", "a?[31m?b?\u{fc}"),
    ("\u{0}\u{1f} ~\u{7f}\u{80}\u{9f}\u{a0}", "?? ~???\u{a0}"),
    ("\u{20ac}\u{1f600}", "\u{20ac}\u{1f600}"),
];

#[test]
fn shows_no_control_character() -> Outcome {
    for (name, wanted) in &SHOWN {
        let wanted = format!("dfu: {wanted}: why\n");
        shows(("", name, "why"), &wanted)?;
    }
    Ok(())
}

/// 4,096 characters are shown, here of two bytes each, and no more.
#[test]
fn shows_so_many_characters() -> Outcome {
    let mut name = String::new();
    for _ in 0..4096u32 {
        name.push_str("\u{fc}");
    }
    let wanted = format!("dfu: a {name}: why\n");
    shows(("a ", &name, "why"), &wanted)?;
    name.push_str("b");
    shows(("a ", &name, "why"), &wanted)
}
