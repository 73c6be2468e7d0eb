// Of crates/dfu_formats/src/dfuse/numbers.rt, whose contracts are taken away.

//! Little-endian numbers in a file.

/// Returns the number in the four bytes from index `place` on, the low byte first.
pub(crate) fn number_at(place: usize, bytes: &[u8]) -> u32 {
    let (_, behind) = bytes.split_at(place);
    let (field, _) = behind.split_at(4);
    u32::from_le_bytes([field[0], field[1], field[2], field[3]])
}
