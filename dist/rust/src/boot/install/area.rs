// Of crates/dfu_boot/src/install/area.rt, whose contracts are taken away.

//! Allowed sizes of a run area, and the check for blank bytes.

use crate::slots::{MAX_SECTOR, PAGE, flash_byte_at};

/// Number of bytes that one program operation writes.
pub(crate) const PROGRAM: u32 = 256;

/// Returns true if a run area of `len` bytes may have sectors of `sector` bytes.
pub(crate) fn is_run_area(len: usize, sector: u32) -> bool {
    sector > 0
        && sector % PAGE == 0
        && sector <= MAX_SECTOR
        && len <= 0xffff_ffff
        && len % sector as usize == 0
}

/// Returns true if all bytes of `run` with offsets in `from..to` are FFh.
///
/// # What the caller must keep to
///
/// - `from` is at most `to`.
/// - `to` is at most the length of `run`.
pub fn are_blank(run: &[u8], from: u32, to: u32) -> bool {
    debug_assert!(from <= to);
    debug_assert!(to as usize <= run.len());
    let mut at = from;
    while at < to {
        if flash_byte_at(run, at as usize) != 0xff {
            return false;
        }
        at += 1;
    }
    true
}
