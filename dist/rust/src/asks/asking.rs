// Of crates/dfu_asks/src/asking.rt, whose contracts are taken away.

//! A device that requests its flash writes from the caller.

use crate::asks::{Noted, PendingWrites, Sector};
use crate::device::{Config, DeviceState};
use crate::slots::Unit;

/// A device that requests its flash writes from the caller. It owns no memory: each call passes the mapped flash, the memory of the block
/// that is not written yet, and the memory of the held-back bytes, which are fewer than a write unit.
#[derive(Clone, Copy, Debug, PartialEq, Eq)]
pub struct Asking {
    /// Settings of the device.
    pub config: Config,
    /// The unit in which the flash is written.
    pub unit: Unit,
    /// The sectors in which the flash is erased before a write, if any.
    pub sector: Sector,
    /// The state of the device, and the values that belong to that state.
    pub mode: DeviceState,
    /// Length in bytes of the block that is not written yet. The block lies at the front of the memory that is passed for it.
    pub block_len: usize,
    /// Number of bytes that are held back. They lie at the front of the memory that is passed for them.
    pub held_len: usize,
    /// Number of bytes put into the spare slot, including those held back.
    pub put_end: u32,
    /// Note of the active image.
    pub noted: Noted,
    /// Pending writes of the row that the device is executing; None if no write is pending.
    pub work: Option<PendingWrites>,
}
