//! Readers and writers that fail: what is returned, and what is written.

use crate::DIGITS_IDS;
use dfu::output::{Exit, add_text, check_text, show_text};
use fustrelan::memory::Global;
use std::io::Write;
use unit_program::known_files::{DIGITS, FOUR_ONES};
use unit_program::readers::{Failing, Refusing};

#[test]
fn checks_a_reader_that_fails() {
    let mut out = Vec::new();
    assert_eq!(check_text(Global, Failing, &mut out), Exit::Fault);
    assert_eq!(out.as_slice(), &b"fault Read\n"[..]);
}

/// A writer that fails after some bytes: a prefix is written, and nothing more is tried.
#[test]
fn stops_at_a_writer_that_fails() {
    for room in [0usize, 1, 16] {
        let mut out = Refusing {
            left: room,
            calls_after: 0,
        };
        assert_eq!(check_text(Global, &FOUR_ONES[..15], &mut out), Exit::Fault);
        assert_eq!((out.left, out.calls_after), (0, 1), "with room for {room}");
    }
}

/// KIND and HEX of `show`, and for how many bytes there is room.
static SHORT_OF_ROOM: [(&str, &str, usize); 3] = [
    ("status", "000500000400", 41),
    ("status", "-", 3),
    ("state", "00", 9),
];

#[test]
fn shows_to_a_writer_that_fails() {
    for (kind, hex, room) in &SHORT_OF_ROOM {
        let mut out = Refusing {
            left: *room,
            calls_after: 0,
        };
        assert_eq!(
            show_text(Global, kind, hex, &mut out),
            Exit::Fault,
            "{kind} {hex}"
        );
        assert_eq!((out.left, out.calls_after), (0, 1), "{kind} {hex}");
    }
}

#[test]
fn adds_to_a_reader_that_fails() {
    let mut file = Vec::new();
    let mut out = Vec::new();
    let exit = add_text(Global, Failing, DIGITS_IDS, &mut file, &mut out);
    assert_eq!(exit, Exit::Fault);
    assert_eq!(file.len(), 0);
    assert_eq!(out.as_slice(), &b"fault Read\n"[..]);
}

/// Adds a suffix to nine digits.
fn adds<F: Write, W: Write>(file: &mut F, out: &mut W) -> Exit {
    add_text(Global, &b"123456789"[..], DIGITS_IDS, file, out)
}

/// The file would have 25 bytes.
#[test]
fn adds_to_a_file_that_fails() {
    let mut file = Refusing {
        left: 24,
        calls_after: 0,
    };
    let mut out = Vec::new();
    assert_eq!(adds(&mut file, &mut out), Exit::Fault);
    assert_eq!((file.left, file.calls_after), (0, 1));
    assert_eq!(out.as_slice(), &b"fault Write\n"[..]);
}

/// The file is whole, and the line isn't.
#[test]
fn adds_with_a_line_that_fails() {
    let mut file = Vec::new();
    let mut out = Refusing {
        left: 8,
        calls_after: 0,
    };
    assert_eq!(adds(&mut file, &mut out), Exit::Fault);
    assert_eq!(file.as_slice(), &DIGITS[..]);
    assert_eq!((out.left, out.calls_after), (0, 1));
}
