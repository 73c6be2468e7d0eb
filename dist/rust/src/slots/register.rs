// Of crates/dfu_slots/src/register.rt, whose contracts are taken away.

//! Computes the CRC register of an image, with the small or large tables that the medium selects.

use crate::slots::Medium;
use crate::slots::read::read_data;
use crate::suffix::Crc;

// Number of bytes that are read at a time.
const REGISTER_BYTES: u32 = 64;

// Adds `piece` to the CRC register, with the small or large tables that the medium selects.
fn take_piece<M: Medium>(medium: &M, crc: &mut Crc, piece: &[u8]) {
    if medium.has_small_tables() {
        crc.update_small(piece);
    } else {
        crc.update(piece);
    }
}

// Returns the CRC register over the first `len` data bytes of the slot that begins at `slot_at`. The caller can add more bytes to it.
fn crc_of<M: Medium>(medium: &M, slot_at: u32, len: u32) -> Crc {
    let mut crc = Crc::new();
    let mut buffer = [0; REGISTER_BYTES as usize];
    let mut at = 0;
    while at < len {
        let size = REGISTER_BYTES.min(len - at);
        let piece = &mut buffer[..size as usize];
        read_data(medium, slot_at, at, piece);
        take_piece(medium, &mut crc, piece);
        at += size;
    }
    crc
}

/// Returns the CRC register over the first `len` data bytes of the slot that begins at `slot_at`.
pub(crate) fn register_of<M: Medium>(medium: &M, slot_at: u32, len: u32) -> u32 {
    crc_of(medium, slot_at, len).value()
}

/// Returns the CRC register over the first `len` bytes put into the slot that begins at `slot_at`. The slot's data holds the bytes before
/// offset `at`, and `held` the others.
pub(crate) fn register_of_put<M: Medium>(
    medium: &M,
    slot_at: u32,
    at: u32,
    held: &[u8],
    len: u32,
) -> u32 {
    let front = at.min(len);
    let mut crc = crc_of(medium, slot_at, front);
    take_piece(medium, &mut crc, &held[..(len - front) as usize]);
    crc.value()
}

/// Returns the CRC register over `image`, computed with the small or large tables that `medium` selects.
pub(crate) fn register_of_image<M: Medium>(medium: &M, image: &[u8]) -> u32 {
    let mut crc = Crc::new();
    take_piece(medium, &mut crc, image);
    crc.value()
}
