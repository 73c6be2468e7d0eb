//! The file D: two elements for setting 0, 01020304 at 08000000 and 0506 at 08004000.

use fustrelan::suffix::Crc;

/// How many bytes D has.
pub const SIZE: usize = 323;

/// Puts bytes at a place.
pub fn put(bytes: &mut [u8; SIZE], at: usize, with: &[u8]) {
    bytes[at..at + with.len()].copy_from_slice(with);
}

/// Makes the CRC right.
pub fn seal(bytes: &mut [u8; SIZE]) {
    let mut crc = Crc::new();
    crc.update(&bytes[..SIZE - 4]);
    put(bytes, SIZE - 4, &crc.value().to_le_bytes());
}

/// D, as ST's tools write it.
pub fn made() -> [u8; SIZE] {
    let mut bytes = [0; SIZE];
    put(&mut bytes, 0, b"DfuSe\x01\x33\x01\x00\x00\x01");
    put(&mut bytes, 11, b"Target\x00\x01\x00\x00\x00ST...");
    put(&mut bytes, 277, &[0x16, 0, 0, 0, 2, 0, 0, 0]);
    put(&mut bytes, 285, &[0, 0, 0, 8, 4, 0, 0, 0, 1, 2, 3, 4]);
    put(&mut bytes, 297, &[0, 0x40, 0, 8, 2, 0, 0, 0, 5, 6]);
    put(&mut bytes, 307, b"\xff\xff\x11\xdf\x83\x04\x1a\x01UFD\x10");
    put(&mut bytes, 319, &[0x7d, 0x87, 0x55, 0xf9]);
    bytes
}

/// D with other bytes at a place, and the CRC made right.
pub fn changed(at: usize, with: &[u8]) -> [u8; SIZE] {
    let mut bytes = made();
    put(&mut bytes, at, with);
    seal(&mut bytes);
    bytes
}
