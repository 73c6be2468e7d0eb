// Of crates/dfu_formats/src/memory/digits.rt, whose contracts are taken away.

//! Numbers in decimal or hexadecimal digits.

use crate::dfuse::memory::text::Number;

/// Returns the value of hexadecimal digit `byte`, of either case. Returns 16 for any other byte.
fn digit_value(byte: u8) -> u64 {
    match byte {
        b'0'..=b'9' => (byte - b'0') as u64,
        b'a'..=b'f' => (byte - b'a') as u64 + 10,
        b'A'..=b'F' => (byte - b'A') as u64 + 10,
        _ => 16,
    }
}

/// Returns the number of leading digits of base `base` in `text`.
fn digits_in(base: u64, text: &[u8]) -> usize {
    let mut count: usize = 0;
    for byte in text {
        if digit_value(*byte) >= base {
            return count;
        }
        count += 1;
    }
    count
}

/// Returns the value of `digits`, at most eight, in base `base`.
fn said(base: u64, digits: &[u8]) -> u64 {
    let mut value: u64 = 0;
    for byte in digits {
        value = base * value + digit_value(*byte);
    }
    value
}

/// Splits a number in base `base` off the front of `text`, with all leading digits. Returns None if there is no digit, or more than `most`.
pub(crate) fn take_number(base: u64, most: usize, text: &[u8]) -> Option<Number<'_>> {
    let count = digits_in(base, text);
    if count == 0 || count > most {
        return None;
    }
    let (digits, rest) = text.split_at(count);
    Some(Number {
        value: said(base, digits),
        rest,
    })
}
