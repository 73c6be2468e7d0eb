// Of crates/dfu_asks/src/formatting.rt, whose contracts are taken away.

//! A format that requests its writes from the caller.

use crate::asks::Sector;
use crate::slots::{Unit, WriteFault};

/// State of a format that requests its writes from the caller. Each call passes the mapped flash and the image.
#[derive(Clone, Copy, Debug, PartialEq, Eq)]
pub struct Formatting {
    /// The unit in which the flash is written.
    pub unit: Unit,
    /// The sectors in which the flash is erased before a write, if any.
    pub sector: Sector,
    /// The CRC register over the image.
    pub register: u32,
    /// Current part of the format.
    pub phase: FormatStep,
    /// Number of bytes already written of the current part.
    pub done: u32,
}

/// Part of a format, in the order in which the parts are written.
#[derive(Clone, Copy, Debug, PartialEq, Eq)]
pub enum FormatStep {
    /// Closing of the second slot's gate.
    CloseSecond,
    /// Closing of the first slot's gate.
    CloseFirst,
    /// Up to 4096 bytes of the image, written into the first slot.
    Image {
        /// Offset of these bytes in the image.
        from: u32,
    },
    /// The header of the first slot.
    Header,
    /// Opening of the first slot's gate.
    Gate,
    /// No part is left.
    Ended,
}

/// Progress of a format after the report of a piece.
#[derive(Clone, Copy, Debug, PartialEq, Eq)]
pub enum FormatProgress {
    /// More writes are pending. Call `next`, carry the piece out, and call `took`, until `took` returns another result.
    Asks,
    /// All parts are written, and the image is the active one.
    Formatted,
    /// A write failed, or other bytes were read back. The format has ended, and the program must call `start` to begin it again.
    Broken(WriteFault),
}
