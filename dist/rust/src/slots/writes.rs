// Of crates/dfu_slots/src/writes.rt, whose contracts are taken away.

//! Writes bytes to a medium, after the erases that they need, and reads them back.

use crate::slots::erasing::erase_within;
use crate::slots::read::stands_at;
use crate::slots::{Medium, WriteFault};

/// Writes `bytes` at offset `at` of `medium`, and reads them back. Every write of the store goes through this function.
pub(crate) fn write<M: Medium>(medium: &mut M, at: u32, bytes: &[u8]) -> Result<(), WriteFault> {
    match medium.write(at, bytes) {
        Err(_) => Err(WriteFault::Failed),
        Ok(()) => {
            if stands_at(medium, at, bytes) {
                return Ok(());
            }
            Err(WriteFault::NotVerified)
        }
    }
}

/// Writes `bytes` at offset `at` of `medium`, or nothing if there are no bytes. On a medium with sectors it first erases the sectors that
/// begin in the range.
pub(crate) fn write_some<M: Medium>(medium: &mut M, at: u32, bytes: &[u8]) -> Result<(), WriteFault> {
    if bytes.is_empty() {
        return Ok(());
    }
    let _end = medium.len();
    if medium.sector() == 0 {
        return write(medium, at, bytes);
    }
    match erase_within(medium, at, bytes.len() as u32) {
        Err(fault) => Err(fault),
        Ok(()) => write(medium, at, bytes),
    }
}
