// Of crates/dfu_formats/src/images/numbers.rt, whose contracts are taken away.

//! Little-endian numbers in bytes.

/// Returns the number in the two bytes from index `at` on, the low byte first.
pub(crate) fn le16(bytes: &[u8], at: usize) -> u32 {
    bytes[at] as u32 + 256 * bytes[at + 1] as u32
}

/// Returns the number in the four bytes from index `at` on, the low byte first.
pub(crate) fn le32(bytes: &[u8], at: usize) -> u32 {
    le16(bytes, at) + 65_536 * le16(bytes, at + 2)
}
