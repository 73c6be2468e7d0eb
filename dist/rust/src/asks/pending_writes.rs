// Of crates/dfu_asks/src/pending_writes.rt, whose contracts are taken away.

//! Pending writes of a row, and their inputs.

use crate::asks::Sector;
use crate::slots::Unit;

/// Pending writes of a row, and the request that is answered after them.
#[derive(Clone, Copy, Debug, PartialEq, Eq)]
pub struct PendingWrites {
    /// The block or the commit that the writes carry out.
    pub job: SlotWrite,
    /// wLength of the GETSTATUS that is answered after the writes; None if elapsed time caused the row, so that no request is answered.
    pub asked: Option<u16>,
    /// Number of bytes already written.
    pub done: u32,
}

/// Job of a row: those inputs of its writes that can no longer be read from the flash once some writes are made.
#[derive(Clone, Copy, Debug, PartialEq, Eq)]
pub enum SlotWrite {
    /// Writes a block into the spare slot, after the bytes that are already there.
    Block {
        /// Offset of the spare slot.
        spare: u32,
        /// True if the gate of the slot is closed first.
        close: bool,
    },
    /// Makes the bytes in the spare slot the active image.
    Commit {
        /// Offset of the spare slot.
        spare: u32,
        /// Generation of the new image.
        generation: u8,
        /// CRC register over the new image.
        register: u32,
    },
}

/// Inputs of writes in addition to their `SlotWrite`: the unit, the sectors, the number of bytes put into the spare slot so far, the bytes
/// held back, and the block.
#[derive(Clone, Copy, Debug, PartialEq, Eq)]
pub(crate) struct WriteInputs<'a> {
    pub(crate) unit: Unit,
    pub(crate) sector: Sector,
    pub(crate) put_end: u32,
    pub(crate) held: &'a [u8],
    pub(crate) block: &'a [u8],
}
