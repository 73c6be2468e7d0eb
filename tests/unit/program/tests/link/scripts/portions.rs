//! Readers that give a text in portions.

use super::rows::{Portions, text_of};
use dfu::link::script;
use fustrelan::memory::Global;

/// The text prints this if each call of the reader gives at most so many bytes.
fn prints(text: &[u8], most: usize, whole: &[u8]) {
    let mut seen = Vec::new();
    let end = script(Global, Portions { rest: text, most }, &mut seen);
    assert!(end.is_ok(), "portions of {most}");
    assert_eq!(seen.as_slice(), whole, "portions of {most}");
}

/// A call of the reader gives from 1 to 70,000 bytes, and the same is printed each time.
#[test]
fn portions_of_any_length() {
    let text = text_of("show / offer W / go pass 13");
    let whole = b"state appIDLE status OK image 00\nreport installed\nimage ffffffff\n";
    for most in 1..=70_000 {
        prints(&text, most, whole);
    }
}

static MOSTS: [usize; 13] = [
    1, 2, 3, 4_095, 16_383, 16_384, 16_385, 32_767, 65_535, 65_536, 65_537, 65_538, 70_000,
];

/// Three lines `show`, each after a line of the greatest length.
fn long_text() -> Vec<u8> {
    let mut text = Vec::new();
    for _ in 0..3 {
        text.resize(text.len() + 65_536, b'#');
        text.extend_from_slice(b"\nshow\n");
    }
    text
}

/// A text with lines of the greatest length comes in portions that end before, at and after the end of
/// a line and of a piece.
#[test]
fn portions_of_a_long_text() {
    let text = long_text();
    let row = "state appIDLE status OK image 00\n";
    let whole = format!("{row}{row}{row}image 00\n");
    for most in &MOSTS {
        prints(&text, *most, whole.as_bytes());
    }
}
