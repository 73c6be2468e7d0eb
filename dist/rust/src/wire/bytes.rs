// Of crates/dfu_wire/src/bytes.rt, whose contracts are taken away.

//! Little-endian numbers and single bits in the fields of the wire formats.

use byteorder::{ByteOrder, LittleEndian};

/// Returns the two bytes of `number`, low byte first.
pub(crate) fn two_bytes(number: u16) -> [u8; 2] {
    let mut bytes = [0; 2];
    LittleEndian::write_u16(&mut bytes, number);
    bytes
}

/// Returns the two-byte number at index `at` of `bytes`, low byte first.
pub(crate) fn number_at(bytes: &[u8], at: usize) -> u16 {
    LittleEndian::read_u16(&bytes[at..])
}

/// Returns true if bit `bit` of `byte` is 1, where bit 0 is the lowest.
pub(crate) fn is_set(byte: u8, bit: u8) -> bool {
    byte & (1 << bit) != 0
}
