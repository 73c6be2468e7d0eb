// Of crates/dfu_formats/src/memory/text.rt, whose contracts are taken away.

//! Parts that are split off the front of a text.

/// A number and the text after it.
#[derive(Debug, PartialEq, Eq)]
pub(crate) struct Number<'t> {
    pub value: u64,
    pub rest: &'t [u8],
}

/// Returns the first byte of `text` and the text after it, or None if `text` is empty.
pub(crate) fn front(text: &[u8]) -> Option<(u8, &[u8])> {
    if text.len() == 0 {
        return None;
    }
    let byte = text[0];
    let (_, rest) = text.split_at(1);
    Some((byte, rest))
}

/// Returns the text after the first byte of `text`, or None if this byte isn't `byte`.
pub(crate) fn behind(byte: u8, text: &[u8]) -> Option<&[u8]> {
    match front(text) {
        Some((first, rest)) if first == byte => Some(rest),
        _ => None,
    }
}
