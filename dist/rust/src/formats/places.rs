// Of crates/dfu_formats/src/images/places.rt, whose contracts are taken away.

//! Searches a text for the first byte that can't belong to a record.

use crate::formats::digits::hex_digit;
use crate::formats::format::Format;
use crate::formats::text::{is_blank_byte, unmarked};

/// A position in a text. Lines and columns count from 1, and columns count bytes.
#[derive(Clone, Copy, Debug, PartialEq, Eq)]
pub struct Place {
    /// Number of the line, from 1.
    pub line: u64,
    /// Number of the byte within the line, from 1.
    pub column: u64,
}

/// Part of a line: before the mark of a record, from the mark to the last digit, or after the digits.
#[derive(Clone, Copy, Debug, PartialEq, Eq)]
enum Part {
    Front,
    Digits,
    Back,
}

/// Returns the part of a line to which `byte` belongs if it follows `part`, or None if no record with `mark` allows this byte there.
fn next_line_part(mark: u8, part: Part, byte: u8) -> Option<Part> {
    match part {
        Part::Front if byte == mark && !is_blank_byte(byte) => Some(Part::Digits),
        Part::Digits if hex_digit(byte) < 16 => Some(Part::Digits),
        Part::Front if is_blank_byte(byte) => Some(Part::Front),
        Part::Digits | Part::Back if is_blank_byte(byte) => Some(Part::Back),
        _ => None,
    }
}

/// Returns the line and column of the first byte of `text` that can't belong to a record with `mark`, or None if there is no such byte.
/// `text` has no byte order mark.
fn bad_from(mark: u8, text: &[u8]) -> Option<Place> {
    let mut part = Part::Front;
    let mut line: u64 = 1;
    let mut column: u64 = 1;
    for byte in text {
        if *byte == b'\n' {
            part = Part::Front;
            line += 1;
            column = 1;
            continue;
        }
        match next_line_part(mark, part, *byte) {
            Some(next) => part = next,
            None => return Some(Place { line, column }),
        }
        column += 1;
    }
    None
}

/// Returns the line and column of the first byte of `file` that can't belong to a record, or None if there is no such byte. For a binary
/// format the result is None.
///
/// A line consists of blanks, the mark of a record, hexadecimal digits, and blanks. A byte order mark is not counted.
pub fn bad_place(format: Format, file: &[u8]) -> Option<Place> {
    match format {
        Format::IntelHex => bad_from(b':', unmarked(file)),
        Format::SRecord => bad_from(b'S', unmarked(file)),
        Format::Uf2 | Format::Elf => None,
    }
}
