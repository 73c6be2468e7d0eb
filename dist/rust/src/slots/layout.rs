// Of crates/dfu_slots/src/layout.rt, whose contracts are taken away.

//! Layout of a medium: the unit in which it is written, and the gate, the header and the data of each slot.

use crate::slots::Medium;

/// Size of the header in bytes, and the smallest size of a gate unit or a header unit.
const HEADER_SIZE: u32 = 16;

/// Size of the largest unit, in bytes.
pub const MAX_UNIT: usize = 256;

/// Size of the smallest sector, in bytes. The size of every sector is a multiple of it.
pub const PAGE: u32 = 256;

/// Size of the largest sector, in bytes.
pub const MAX_SECTOR: u32 = 1 << 18;

/// Largest capacity of a slot, in bytes of data.
pub const MAX_CAPACITY: u32 = 1 << 24;

/// First byte of an open gate unit. With any other first byte the gate is closed.
pub const OPEN_GATE: u8 = 0xa5;

/// Unit in which a medium is written: the offset and the length of each write are multiples of it.
#[derive(Clone, Copy, Debug, PartialEq, Eq)]
pub enum Unit {
    /// 1 byte: a write may have any offset and any length.
    Byte,
    /// 16 bytes: the offset and the length of a write are multiples of 16.
    U16,
    /// 64 bytes: the offset and the length of a write are multiples of 64.
    U64,
    /// 256 bytes: the offset and the length of a write are multiples of 256.
    U256,
}

impl Unit {
    /// Returns the size of the unit in bytes: 1, 16, 64 or 256.
    pub fn size(self) -> u32 {
        match self {
            Unit::Byte => 1,
            Unit::U16 => 16,
            Unit::U64 => 64,
            Unit::U256 => MAX_UNIT as u32,
        }
    }
}

/// Returns the number of bytes of the gate unit, from 16 to 256. The header unit has the same size.
pub(crate) fn gate_size(unit: Unit) -> u32 {
    HEADER_SIZE.max(unit.size())
}

/// Returns the number of bytes that the gate of a slot occupies: the largest of 16, the unit's size and the sector's. The header occupies
/// as many.
pub(crate) fn gate_room(unit: Unit, sector: u32) -> u32 {
    gate_size(unit).max(sector)
}

/// Returns the number of zeros, from 0 to 255, that fill `len` bytes up to the end of a unit.
pub(crate) fn fill_size(unit: Unit, len: u32) -> u32 {
    let size = unit.size();
    (size - len % size) % size
}

/// Returns the number of bytes that the gate of a slot occupies: the largest of 16, the unit's size and the sector's. The header occupies
/// as many.
pub fn gate_of<M: Medium>(medium: &M) -> u32 {
    gate_room(medium.unit(), medium.sector())
}

/// Returns the number of data bytes of each slot.
///
/// # What the caller must keep to
///
/// - The medium has a length that two slots can have: `is_sized` says so.
pub fn capacity_of<M: Medium>(medium: &M) -> u32 {
    debug_assert!(crate::slots::is_sized(medium));
    medium.len() / 2 - 2 * gate_of(medium)
}

// Returns true if the store supports this sector size: 0, or a multiple of 256 up to 262,144.
fn is_sector(sector: u32) -> bool {
    sector % PAGE == 0 && sector <= MAX_SECTOR
}

// Returns true if `len` is a multiple of the unit's size and, on a medium with sectors, also of the sector size.
fn is_whole(unit: Unit, sector: u32, len: u32) -> bool {
    len % unit.size() == 0 && (sector == 0 || len % sector == 0)
}

/// Returns true if the medium consists of exactly two slots, each with 1 to 16,777,216 bytes of data in whole units and sectors, and the
/// store supports the sector size.
pub fn is_sized<M: Medium>(medium: &M) -> bool {
    let sector = medium.sector();
    if !is_sector(sector) {
        return false;
    }
    let gates = 2 * gate_of(medium);
    let len = medium.len();
    len % 2 == 0
        && len > 2 * gates
        && len <= 2 * (gates + MAX_CAPACITY)
        && is_whole(medium.unit(), sector, len / 2 - gates)
}

/// Version of the headers that the store writes. Such a header holds the CRC register of the image.
pub const VERSION: u8 = 2;

/// Version of a header without a CRC register. The store reads such headers, but never writes one.
pub const OLD_VERSION: u8 = 1;

/// Returns a 16-byte header: `generation`, `version`, two zeros, `len` (the image's length in bytes) and `register` (the image's CRC
/// register), both as four bytes in little-endian order, and four zeros. A header of version 1 has a `register` of 0.
pub fn make_header(version: u8, generation: u8, len: u32, register: u32) -> [u8; 16] {
    let [a, b, c, d] = len.to_le_bytes();
    let [e, f, g, h] = register.to_le_bytes();
    [
        generation, version, 0, 0, a, b, c, d, e, f, g, h, 0, 0, 0, 0,
    ]
}

/// Returns the length of the image, in bytes, that `header` holds.
pub fn length_in(header: &[u8; 16]) -> u32 {
    u32::from_le_bytes([header[4], header[5], header[6], header[7]])
}

/// Returns the image's CRC register that `header` holds.
pub(crate) fn register_in(header: &[u8; 16]) -> u32 {
    u32::from_le_bytes([header[8], header[9], header[10], header[11]])
}

// Returns the last four bytes of a header as a number. It is 0 in a well-formed header.
fn rest_in(header: &[u8; 16]) -> u32 {
    u32::from_le_bytes([header[12], header[13], header[14], header[15]])
}

/// Returns true if `found` is a well-formed header with this version and CRC register, and with any generation and length.
pub(crate) fn is_header(found: &[u8; 16], version: u8, register: u32) -> bool {
    if found[1] != version {
        return false;
    }
    if found[2] != 0 {
        return false;
    }
    if found[3] != 0 {
        return false;
    }
    if register_in(found) != register {
        return false;
    }
    rest_in(found) == 0
}

/// Returns true if `found` is a well-formed header with this version and CRC register and a length of at most `room`.
pub(crate) fn is_formed(found: &[u8; 16], room: u32, version: u8, register: u32) -> bool {
    length_in(found) <= room && is_header(found, version, register)
}
