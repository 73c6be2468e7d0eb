// Of crates/dfu_slots/src/erasing.rt, whose contracts are taken away.

//! Erases sectors, and reads each erased sector back.

use crate::slots::layout::MAX_UNIT;
use crate::slots::read::stands_at;
use crate::slots::{Medium, WriteFault};

/// Returns true if the `len` bytes that begin at `at` are all FFh.
pub(crate) fn is_blank<M: Medium>(medium: &M, at: u32, len: u32) -> bool {
    let blank = [0xff; MAX_UNIT];
    let _end = medium.len();
    let mut done = 0;
    while done < len {
        let size = (len - done).min(MAX_UNIT as u32);
        if stands_at(medium, at + done, &blank[..size as usize]) {
            done += size;
        } else {
            return false;
        }
    }
    true
}

/// Erases the sector that begins at `at`, and reads it back. Every erase of the store goes through this function.
pub(crate) fn erase<M: Medium>(medium: &mut M, at: u32) -> Result<(), WriteFault> {
    let size = medium.sector();
    match medium.erase(at) {
        Err(_) => Err(WriteFault::Failed),
        Ok(()) => {
            if is_blank(medium, at, size) {
                return Ok(());
            }
            Err(WriteFault::NotVerified)
        }
    }
}

/// Erases, in order, the sectors that begin in the range of `len` bytes from offset `at`.
pub(crate) fn erase_within<M: Medium>(medium: &mut M, at: u32, len: u32) -> Result<(), WriteFault> {
    let _end = medium.len();
    let sector = medium.sector();
    let end = at + len;
    let behind = at % sector;
    let mut place = if behind == 0 {
        at
    } else {
        at + (sector - behind)
    };
    while place < end {
        match erase(medium, place) {
            Err(fault) => return Err(fault),
            Ok(()) => place += sector,
        }
    }
    Ok(())
}
