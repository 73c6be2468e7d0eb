// Of crates/dfu_conformance/src/line.rt, whose contracts are taken away.

//! The fields of a line of a log.

use crate::conformance::Response;
use crate::wire::Setup;

/// Returns the index of the first space in `line`, or None.
fn first_space(line: &[u8]) -> Option<usize> {
    line.iter().position(|byte| *byte == b' ')
}

/// Returns the index at which the first field of `line` ends: its first space, or the end of the line.
pub(crate) fn field_end(line: &[u8]) -> usize {
    match first_space(line) {
        Some(at) => at,
        None => line.len(),
    }
}

/// Returns the value of hexadecimal digit `byte`, of either case, or 16 for any other byte.
fn value_of(byte: u8) -> u8 {
    match byte {
        b'0'..=b'9' => byte - b'0',
        b'a'..=b'f' => byte - b'a' + 10,
        b'A'..=b'F' => byte - b'A' + 10,
        _ => 16,
    }
}

/// Returns true if all bytes of `text` are hexadecimal digits.
fn are_digits(text: &[u8]) -> bool {
    text.iter().all(|byte| value_of(*byte) < 16)
}

/// Returns true if `text` consists of at most 65,535 pairs of hexadecimal digits.
fn is_bytes(text: &[u8]) -> bool {
    if text.len() > 131_070 {
        return false;
    }
    if text.len() % 2 != 0 {
        return false;
    }
    are_digits(text)
}

/// Returns the byte that pair `n` of hexadecimal digits encodes, or 0 if `text` ends before this pair does.
fn byte_at(text: &[u8], n: usize) -> u8 {
    if 2 * n + 1 >= text.len() {
        return 0;
    }
    let high = value_of(text[2 * n]) as u16;
    let low = value_of(text[2 * n + 1]) as u16;
    ((16 * high + low) % 256) as u8
}

/// Returns the number that pairs `n` and `n + 1` of hexadecimal digits encode, the low byte first.
fn number_at(text: &[u8], n: usize) -> u16 {
    byte_at(text, n) as u16 + 256 * byte_at(text, n + 1) as u16
}

/// Returns the setup that the sixteen hexadecimal digits of `text` encode, or None for any other text.
pub(crate) fn setup_of(text: &[u8]) -> Option<Setup> {
    if !is_bytes(text) || text.len() != 16 {
        return None;
    }
    Some(Setup {
        kind: byte_at(text, 0),
        request: byte_at(text, 1),
        value: number_at(text, 2),
        index: number_at(text, 4),
        length: number_at(text, 6),
    })
}

/// Returns the number of bytes of the body `text`: half the number of its hexadecimal digits, or 0 for `-`. Returns None for any other
/// text.
pub(crate) fn body_of(text: &[u8]) -> Option<usize> {
    if text == b"-".as_slice() {
        return Some(0);
    }
    if !is_bytes(text) || text.is_empty() {
        return None;
    }
    Some(text.len() / 2)
}

/// Returns the answer in `text`: `ack`, `stall`, `nothing`, or the bytes that the device sent. Returns None for any other text.
pub(crate) fn answer_of(text: &[u8]) -> Option<Response> {
    if text == b"ack".as_slice() {
        return Some(Response::Bytes {
            count: 0,
            first: 0,
            fifth: 0,
        });
    }
    if text == b"stall".as_slice() {
        return Some(Response::Stall);
    }
    if text == b"nothing".as_slice() {
        return Some(Response::Nothing);
    }
    if !is_bytes(text) || text.is_empty() || text.len() > 131_070 {
        return None;
    }
    Some(Response::Bytes {
        count: (text.len() / 2) as u32,
        first: byte_at(text, 0),
        fifth: byte_at(text, 4),
    })
}
