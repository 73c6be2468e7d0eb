// Of crates/dfu_formats/src/images/looks.rt, whose contracts are taken away.

//! The apparent format of a file without a DFU suffix.

use crate::formats::digits::hex_digit;
use crate::formats::endings::{Ending, name_ending};
use crate::formats::format::Format;
use crate::formats::places::{Place, bad_place};
use crate::formats::text::{is_text, unblanked, unmarked};

/// A kind of file from which no image is made.
#[derive(Clone, Copy, Debug, PartialEq, Eq)]
pub enum NotImage {
    /// The file begins with the letters DfuSe.
    DfuSe,
    /// The file begins like a zip archive.
    Zip,
    /// The file begins like a gzip archive.
    Gzip,
    /// The whole file is text, but in no known format.
    Text,
    /// The bytes have no known format, but the ending of the name is that of a known kind.
    Named(Ending),
}

/// The apparent kind of a file, as far as its bytes and its name show it.
#[derive(Clone, Copy, Debug, PartialEq, Eq)]
pub enum Looks {
    /// The file may be a raw image, because neither its bytes nor its name show a known kind.
    Raw,
    /// The file has the mark of a format that builds produce.
    Of(Format),
    /// The file is of a kind from which no image is made.
    Other(NotImage),
}

/// Result of `look_at`.
#[derive(Clone, Copy, Debug, PartialEq, Eq)]
pub struct Look {
    /// The apparent kind of the file.
    pub looks: Looks,
    /// The kind of file for the ending of its name, which need not be the kind that its bytes show.
    pub ending: Option<Ending>,
    /// Line and column of the first byte that can't belong to a record, if the file looks like Intel HEX or S-records.
    pub bad: Option<Place>,
}

/// Returns true if the first two bytes of `text` are hexadecimal digits.
fn has_digits(text: &[u8]) -> bool {
    match text {
        [high, low, ..] => hex_digit(*high) < 16 && hex_digit(*low) < 16,
        _ => false,
    }
}

/// Returns true if `text`, which is `file` without a byte order mark and blanks at its front, begins like Intel HEX.
fn begins_ihex(file: &[u8], text: &[u8]) -> bool {
    match text {
        [b':', rest @ ..] => has_digits(rest) || is_text(file),
        _ => false,
    }
}

/// Returns true if `text` begins like an S-record.
fn begins_srec(text: &[u8]) -> bool {
    match text {
        [b'S', b'0'..=b'9', rest @ ..] => has_digits(rest),
        _ => false,
    }
}

/// Returns the apparent kind of a file whose bytes have no known format, from the `ending` of its name.
fn looks_by_name(ending: Option<Ending>) -> Looks {
    match ending {
        Some(ending) => Looks::Other(NotImage::Named(ending)),
        None => Looks::Raw,
    }
}

/// Returns the apparent kind of `file`, from its bytes and the `ending` of its name.
fn looks_of(file: &[u8], ending: Option<Ending>) -> Looks {
    let text = unblanked(unmarked(file));
    if file.starts_with(b"DfuSe") {
        Looks::Other(NotImage::DfuSe)
    } else if begins_ihex(file, text) {
        Looks::Of(Format::IntelHex)
    } else if begins_srec(text) {
        Looks::Of(Format::SRecord)
    } else if file.starts_with(b"UF2\n") {
        Looks::Of(Format::Uf2)
    } else if file.starts_with(b"\x7fELF") {
        Looks::Of(Format::Elf)
    } else if file.starts_with(b"PK\x03\x04") {
        Looks::Other(NotImage::Zip)
    } else if file.starts_with(b"\x1f\x8b") {
        Looks::Other(NotImage::Gzip)
    } else if is_text(file) {
        Looks::Other(NotImage::Text)
    } else {
        looks_by_name(ending)
    }
}

/// Returns the apparent kind of `file`, the kind for its name, and the first byte that can't belong to a record. `name` may be a path, or
/// only its last part.
pub fn look_at(file: &[u8], name: &[u8]) -> Look {
    let ending = name_ending(name);
    let looks = looks_of(file, ending);
    let bad = match looks {
        Looks::Of(format) => bad_place(format, file),
        _ => None,
    };
    Look { looks, ending, bad }
}
