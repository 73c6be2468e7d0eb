// Of crates/dfu_formats/src/memory/place.rt, whose contracts are taken away.

//! Start addresses of ranges. A range begins at an address of its own, or at the end of the range before it.

use crate::dfuse::memory::digits::take_number;
use crate::dfuse::memory::fault::MapFault;
use crate::dfuse::memory::text::{Number, behind, front};

/// Returns the text after `0x` or `0X`, or all of `text` if it begins with neither.
fn text_after_prefix(text: &[u8]) -> &[u8] {
    match front(text) {
        Some((b'0', digits)) => match front(digits) {
            Some((b'x' | b'X', rest)) => rest,
            _ => text,
        },
        _ => text,
    }
}

/// Splits an address, and the `/` after it, off the front of `text`.
pub(crate) fn take_address(text: &[u8]) -> Result<Number<'_>, MapFault> {
    match take_number(16, 8, text_after_prefix(text)) {
        Some(number) => match behind(b'/', number.rest) {
            Some(rest) => Ok(Number {
                value: number.value,
                rest,
            }),
            None => Err(MapFault::BadAddress),
        },
        None => Err(MapFault::BadAddress),
    }
}

/// Splits the start of the next range off the front of `text`, after a range that ends at `end`. Returns None at the end of the text.
pub(crate) fn take_next(end: u64, text: &[u8]) -> Result<Option<Number<'_>>, MapFault> {
    match front(text) {
        None => Ok(None),
        Some((b',', rest)) => Ok(Some(Number { value: end, rest })),
        Some((b'/', rest)) => match take_address(rest) {
            Ok(place) => Ok(Some(place)),
            Err(fault) => Err(fault),
        },
        Some(_) => Err(MapFault::Trailing),
    }
}
