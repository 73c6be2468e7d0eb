// Of crates/dfu_slots/src/read.rt, whose contracts are taken away.

//! Functions that read flash, and the slots of a medium.

use crate::slots::Medium;
use crate::slots::layout::{
    OLD_VERSION, OPEN_GATE, VERSION, capacity_of, gate_of, is_formed, is_header, length_in,
};
use crate::slots::register::register_of;
use crate::suffix::Crc;

// Number of bytes that are copied at a time out of flash that is not mapped.
const PIECE_BYTES: usize = 64;

// Number of bytes that are read back at a time.
const READ_BACK_BYTES: usize = 256;

// Returns true if flash is mapped and can be read in place. The contract leaves the result open, so that callers are proved for both
// results.
fn is_mapped() -> bool {
    true
}

/// Copies `flash` to `out`, which has the same length. Flash that is not mapped is read only through this function.
///
/// # What the caller must keep to
///
/// - `out` is as long as `flash`.
pub fn read_flash(flash: &[u8], out: &mut [u8]) {
    debug_assert!(flash.len() == out.len());
    out.copy_from_slice(flash);
}

/// Returns byte `at` of flash, even if the flash is not mapped.
///
/// # What the caller must keep to
///
/// - `at` is less than the length of `flash`.
pub fn flash_byte_at(flash: &[u8], at: usize) -> u8 {
    debug_assert!(at < flash.len());
    let mut byte = [0];
    read_flash(&flash[at..at + 1], &mut byte);
    byte[0]
}

/// Returns true if every byte of flash from offset `from` up to, not including, `to` is FFh.
///
/// # What the caller must keep to
///
/// - `to` is at most the length of `flash`.
pub fn is_flash_erased(flash: &[u8], from: usize, to: usize) -> bool {
    debug_assert!(to <= flash.len());
    for i in from..to {
        if flash_byte_at(flash, i) != 0xff {
            return false;
        }
    }
    true
}

// Returns the CRC register over all bytes of `flash`, copying them piece by piece.
fn crc_by_pieces(flash: &[u8]) -> Crc {
    let mut crc = Crc::new();
    let mut buffer = [0; PIECE_BYTES];
    let mut at = 0;
    while at < flash.len() {
        let size = PIECE_BYTES.min(flash.len() - at);
        let piece = &mut buffer[..size];
        read_flash(&flash[at..at + size], piece);
        crc.update_small(piece);
        at += size;
    }
    crc
}

/// Returns the CRC register over all bytes of `flash`. The caller can add more bytes to it.
pub fn crc_of_flash(flash: &[u8]) -> Crc {
    if !is_mapped() {
        return crc_by_pieces(flash);
    }
    let mut crc = Crc::new();
    crc.update_small(flash);
    crc
}

pub(crate) fn byte_at<M: Medium>(medium: &M, at: u32) -> u8 {
    let mut byte = [0];
    medium.read(at, &mut byte);
    byte[0]
}

// Returns true if two slices of equal length hold equal bytes. This compiles to much less code than `==`.
fn are_same(read: &[u8], piece: &[u8]) -> bool {
    let mut at = 0;
    while at < piece.len() {
        if read[at] != piece[at] {
            return false;
        }
        at += 1;
    }
    true
}

/// Returns true if the medium holds `bytes` at offset `at`. Reads them in pieces of up to 256 bytes.
pub(crate) fn stands_at<M: Medium>(medium: &M, at: u32, bytes: &[u8]) -> bool {
    let mut buffer = [0; READ_BACK_BYTES];
    let mut ahead = medium.len() - at;
    let mut rest = bytes;
    while !rest.is_empty() {
        let size = READ_BACK_BYTES.min(rest.len());
        let read = &mut buffer[..size];
        medium.read(medium.len() - ahead, read);
        let (piece, next) = rest.split_at(size);
        if !are_same(read, piece) {
            return false;
        }
        ahead -= size as u32;
        rest = next;
    }
    true
}

/// Returns true if the gate of the slot that begins at `at` is open.
///
/// # What the caller must keep to
///
/// - `at` is below the medium's length.
pub fn is_open<M: Medium>(medium: &M, at: u32) -> bool {
    debug_assert!(at < medium.len());
    byte_at(medium, at) == OPEN_GATE
}

/// Returns the 16 bytes of the header of the slot that begins at `at`.
pub fn header_of<M: Medium>(medium: &M, at: u32) -> [u8; 16] {
    let mut header = [0; 16];
    medium.read(at + gate_of(medium), &mut header);
    header
}

// Returns true if the slot that begins at `at` has a well-formed header of version 2 with the CRC register of its image.
fn is_intact<M: Medium>(medium: &M, at: u32) -> bool {
    let header = header_of(medium, at);
    let len = length_in(&header);
    if len > capacity_of(medium) {
        return false;
    }
    is_header(&header, VERSION, register_of(medium, at, len))
}

/// Returns true if the slot that begins at `at` counts in the sense of `OpenFault`.
pub(crate) fn counts<M: Medium>(medium: &M, at: u32) -> bool {
    is_open(medium, at) && (header_of(medium, at)[1] != VERSION || is_intact(medium, at))
}

/// Returns the generation in the header of the slot that begins at `at`.
///
/// # What the caller must keep to
///
/// - The medium has a length that two slots can have: `is_sized` says so.
/// - The header of the slot that begins at `at` lies within the medium.
pub fn generation<M: Medium>(medium: &M, at: u32) -> u8 {
    debug_assert!(crate::slots::is_sized(medium));
    debug_assert!(u64::from(at) + u64::from(gate_of(medium)) < u64::from(medium.len()));
    byte_at(medium, at + gate_of(medium))
}

/// Returns the image's length from the header of a slot that counts. A header of version 2 is well formed, because the slot counts. For any
/// other header the function returns None, unless it is a well-formed header of version 1 with a length of at most the capacity.
pub(crate) fn header_len<M: Medium>(medium: &M, at: u32) -> Option<u32> {
    let header = header_of(medium, at);
    let len = length_in(&header);
    if header[1] == VERSION {
        return Some(len);
    }
    if is_formed(&header, capacity_of(medium), OLD_VERSION, 0) {
        Some(len)
    } else {
        None
    }
}

/// Returns the offset of the first data byte of the slot that begins at `slot_at`.
///
/// # What the caller must keep to
///
/// - The medium has a length that two slots can have: `is_sized` says so.
/// - The slot that begins at `slot_at` lies within the medium.
pub fn data_at<M: Medium>(medium: &M, slot_at: u32) -> u32 {
    debug_assert!(crate::slots::is_sized(medium));
    debug_assert!(slot_at <= medium.len() / 2);
    slot_at + 2 * gate_of(medium)
}

/// Reads data bytes of the slot that begins at `slot_at`, the first one at offset `at` of the data.
///
/// # What the caller must keep to
///
/// - The medium has a length that two slots can have: `is_sized` says so.
/// - The slot that begins at `slot_at` lies within the medium.
/// - The range lies within the data of the slot.
pub fn read_data<M: Medium>(medium: &M, slot_at: u32, at: u32, out: &mut [u8]) {
    debug_assert!(crate::slots::is_sized(medium));
    debug_assert!(slot_at <= medium.len() / 2);
    debug_assert!(u64::from(at) + out.len() as u64 <= u64::from(capacity_of(medium)));
    medium.read(data_at(medium, slot_at) + at, out);
}
