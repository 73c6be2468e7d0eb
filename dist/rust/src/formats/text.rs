// Of crates/dfu_formats/src/images/text.rt, whose contracts are taken away.

//! The byte order mark and the blanks of a text, and the test that a file is text.

/// Returns `text` without its UTF-8 byte order mark, if it begins with one.
pub(crate) fn unmarked(text: &[u8]) -> &[u8] {
    match text {
        [0xef, 0xbb, 0xbf, rest @ ..] => rest,
        _ => text,
    }
}

/// Returns true if `byte` is a space, a tab or a carriage return.
pub(crate) fn is_blank_byte(byte: u8) -> bool {
    byte == b' ' || byte == b'\t' || byte == b'\r'
}

/// Returns `text` without the blanks and line feeds at its front.
pub(crate) fn unblanked(text: &[u8]) -> &[u8] {
    let mut rest = text;
    while let [first, more @ ..] = rest {
        if !(is_blank_byte(*first) || *first == b'\n') {
            return rest;
        }
        rest = more;
    }
    rest
}

/// Returns true if `byte` is tab, line feed, form feed, carriage return, or not an ASCII control character.
fn is_text_byte(byte: u8) -> bool {
    match byte {
        b'\t' | b'\n' | 0x0c | b'\r' => true,
        _ => byte >= b' ' && byte != 0x7f,
    }
}

/// Continuation bytes of a UTF-8 character that are pending: their number, and the bounds of the next one.
#[derive(Clone, Copy, Debug, PartialEq, Eq)]
struct Awaited {
    left: u8,
    low: u8,
    high: u8,
}

/// State between two characters, where no continuation byte is pending.
const NOTHING: Awaited = Awaited {
    left: 0,
    low: 0x80,
    high: 0xbf,
};

/// Returns the continuation bytes that are pending after `byte`, the first of a character. Returns None if no character of text begins with
/// it.
fn awaited_after_first_byte(byte: u8) -> Option<Awaited> {
    let (left, low, high) = match byte {
        0..=0x7f => return if is_text_byte(byte) {
            Some(NOTHING)
        } else {
            None
        },
        0xc2..=0xdf => (1, 0x80, 0xbf),
        0xe0 => (2, 0xa0, 0xbf),
        0xed => (2, 0x80, 0x9f),
        0xe1..=0xef => (2, 0x80, 0xbf),
        0xf0 => (3, 0x90, 0xbf),
        0xf1..=0xf3 => (3, 0x80, 0xbf),
        0xf4 => (3, 0x80, 0x8f),
        _ => return None,
    };
    Some(Awaited { left, low, high })
}

/// Returns the continuation bytes that are pending after `byte`, or None if it is not allowed here.
fn awaited_after_byte(awaited: Awaited, byte: u8) -> Option<Awaited> {
    if awaited.left == 0 {
        return awaited_after_first_byte(byte);
    }
    if awaited.low <= byte && byte <= awaited.high {
        return Some(Awaited {
            left: awaited.left - 1,
            ..NOTHING
        });
    }
    None
}

/// Returns true if `bytes` are UTF-8 without ASCII control characters other than tab, line feed, form feed and carriage return.
fn are_characters(bytes: &[u8]) -> bool {
    let mut awaited = NOTHING;
    for byte in bytes {
        match awaited_after_byte(awaited, *byte) {
            Some(next) => awaited = next,
            None => return false,
        }
    }
    awaited.left == 0
}

/// Returns true if `file` is not empty, is UTF-8, and has no ASCII control characters other than tab, line feed, form feed and carriage
/// return.
pub(crate) fn is_text(file: &[u8]) -> bool {
    file.len() != 0 && are_characters(file)
}
