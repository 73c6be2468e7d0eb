// Of crates/dfu_formats/src/images/digits.rt, whose contracts are taken away.

//! Bytes as pairs of hexadecimal digits.

use crate::formats::fault::ImageFault;
use crate::formats::limits::MAX_RECORD;
use arrayvec::ArrayVec;

/// Returns the value, 0 to 15, of hexadecimal digit `byte`, of either case. Returns 16 for any other byte.
pub fn hex_digit(byte: u8) -> u8 {
    match byte {
        b'0'..=b'9' => byte - b'0',
        b'a'..=b'f' => byte - b'a' + 10,
        b'A'..=b'F' => byte - b'A' + 10,
        _ => 16,
    }
}

/// Returns the bytes of the hexadecimal `digits`, two digits for each. Returns None if a byte is no digit or one digit remains.
fn pairs(digits: &[u8]) -> Option<ArrayVec<u8, MAX_RECORD>> {
    let mut bytes = ArrayVec::new();
    let mut at = 0;
    while at < digits.len() {
        if at + 1 == digits.len() {
            return None;
        }
        let high = hex_digit(digits[at]);
        let low = hex_digit(digits[at + 1]);
        if high == 16 || low == 16 {
            return None;
        }
        bytes.push(16 * high + low);
        at += 2;
    }
    Some(bytes)
}

/// Decodes the `digits` of the record on line `at`.
pub(crate) fn bytes_at(at: usize, digits: &[u8]) -> Result<ArrayVec<u8, MAX_RECORD>, ImageFault> {
    if digits.len() > 2 * MAX_RECORD {
        return Err(ImageFault::BadLength(at));
    }
    match pairs(digits) {
        Some(bytes) => Ok(bytes),
        None => Err(ImageFault::BadDigit(at)),
    }
}

/// Returns the sum of the bytes of a record, for its checksum.
pub(crate) fn sum_of(bytes: &[u8]) -> u32 {
    let mut sum: u32 = 0;
    for byte in bytes {
        sum += *byte as u32;
    }
    sum
}
