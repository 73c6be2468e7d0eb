// Of crates/dfu_asks/src/reply.rt, whose contracts are taken away.

//! Results of the calls of a device that requests its flash writes from the caller: a reply, a flash operation, or a refusal.

use crate::device::Answer;

/// Reply of a device to a call.
#[derive(Clone, Copy, Debug, PartialEq, Eq)]
pub enum Reply {
    /// Writes are pending. Call `next`, carry the piece out, and call `took`, until `took` returns another result.
    Asks,
    /// The answer, and the number of its bytes at the front of the buffer.
    Answered(Answer, usize),
}

/// A piece: a flash operation that programs or erases `len` bytes at `at`. The call that returns a piece to program writes its bytes to the
/// front of the caller's buffer.
#[derive(Clone, Copy, Debug, PartialEq, Eq)]
pub struct FlashOp {
    /// True if the piece is an erase, after which the `len` bytes from `at` on must be FFh; false for a program.
    pub erases: bool,
    /// Offset of the piece's first byte in the flash.
    pub at: u64,
    /// Number of bytes of the piece: 1 to 256 for a program, the size of a sector for an erase.
    pub len: usize,
}

/// Reasons to refuse a call of a device. A refused call changes nothing.
#[derive(Clone, Copy, Debug, PartialEq, Eq)]
pub enum Refusal {
    /// Writes are pending, and must be carried out first.
    Asked,
    /// The noted slot of the flash is not open or doesn't have the noted header, or the flash doesn't consist of two slots, for example
    /// because it has 2^32 bytes or more.
    NoMedium,
    /// The record is not a device on this flash, or the block's memory has less room than the transfer size. From `took`: no write is
    /// pending.
    NoDevice,
    /// The buffer of the answer has less room than an answer may need.
    NoRoom,
}
