// Of crates/dfu_slots/src/sequence.rt, whose contracts are taken away.

//! The operations of each change of a medium. Performed in their order, they make the writes of the change.

use crate::slots::Unit;
use crate::slots::layout::{fill_size, gate_room, gate_size};
use crate::slots::operation::{Op, Source};

/// Number of bytes of an image that a format writes at a time. It is a multiple of every unit.
pub(crate) const MAX_WRITE: u32 = 4096;

/// Number of operations of the longest change.
pub const MAX_OPERATIONS: usize = 3;

/// A change of a medium, with the numbers that determine its operations.
#[derive(Clone, Copy, Debug, PartialEq, Eq)]
pub enum Sequence {
    /// Closes the gate of a slot.
    Close {
        /// Offset of the slot on the medium.
        slot: u32,
    },
    /// Puts a block after the bytes held back: writes the unit that the held bytes begin, if the block fills it, and then all other whole
    /// units.
    Put {
        /// Offset of the slot on the medium.
        slot: u32,
        /// Offset in the slot's data at which the bytes put so far end.
        end: u32,
        /// Number of bytes that are held back.
        held: u16,
        /// Length of the block in bytes.
        block: u16,
    },
    /// Writes the bytes held back, filled up to a unit, then the header, and then opens the gate.
    Commit {
        /// Offset of the slot on the medium.
        slot: u32,
        /// Offset in the slot's data at which the bytes put so far end.
        end: u32,
        /// Number of bytes that are held back.
        held: u16,
    },
    /// Writes up to 4,096 bytes of an image, filled up to a unit, into the data of the first slot, as `format` does.
    Image {
        /// Offset in the image of the first byte that is written.
        from: u32,
        /// Length of the image in bytes.
        image: u32,
    },
}

// Returns the offset on the medium of the first byte held back, in the slot that begins at `slot`.
fn held_from(unit: Unit, sector: u32, slot: u32, end: u32, held: u16) -> u64 {
    let at = end.saturating_sub(u32::from(held));
    u64::from(slot) + 2 * u64::from(gate_room(unit, sector)) + u64::from(at)
}

// Returns the operation that closes a gate: without sectors it writes a gate unit of zeros, with sectors it erases the gate's sector.
// Returns None if `index` is over 0.
fn close_op(unit: Unit, sector: u32, slot: u32, index: usize) -> Option<Op> {
    if index > 0 {
        return None;
    }
    let at = u64::from(slot);
    if sector == 0 {
        return Some(Op::Program {
            at,
            source: Source::Closed,
            skip: 0,
            len: gate_size(unit),
        });
    }
    Some(Op::Erase { at })
}

// Returns operation `index` of a put whose first byte goes to offset `at` of the medium. Returns None if `index` is over 1.
fn put_op(unit: Unit, at: u64, held: u16, block: u16, index: usize) -> Option<Op> {
    let size = unit.size();
    let all = u32::from(held) + u32::from(block);
    let whole = all - all % size;
    let head = if held == 0 { 0 } else { size.min(whole) };
    match index {
        0 => Some(Op::Program {
            at,
            source: Source::Joined,
            skip: 0,
            len: head,
        }),
        1 => Some(Op::Program {
            at: at + u64::from(head),
            source: Source::Joined,
            skip: head,
            len: whole - head,
        }),
        _ => None,
    }
}

// Returns operation `index` of a commit whose held bytes go to offset `at` of the medium. Returns None if `index` is over 2.
fn commit_op(unit: Unit, sector: u32, slot: u32, at: u64, held: u16, index: usize) -> Option<Op> {
    match index {
        0 => Some(Op::Program {
            at,
            source: Source::Held,
            skip: 0,
            len: u32::from(held) + fill_size(unit, u32::from(held)),
        }),
        1 => Some(Op::Program {
            at: u64::from(slot) + u64::from(gate_room(unit, sector)),
            source: Source::Header,
            skip: 0,
            len: gate_size(unit),
        }),
        2 => Some(Op::Program {
            at: u64::from(slot),
            source: Source::Opened,
            skip: 0,
            len: gate_size(unit),
        }),
        _ => None,
    }
}

// Returns the operation that writes the piece that begins at byte `from` of an image of `image` bytes. Returns None if `index` is over 0.
fn image_op(unit: Unit, sector: u32, from: u32, image: u32, index: usize) -> Option<Op> {
    if index > 0 {
        return None;
    }
    let size = u64::from(image) + u64::from(fill_size(unit, image));
    let skip = u64::from(from).min(size);
    Some(Op::Program {
        at: 2 * u64::from(gate_room(unit, sector)) + u64::from(from),
        source: Source::Joined,
        skip: skip as u32,
        len: (size - skip).min(u64::from(MAX_WRITE)) as u32,
    })
}

impl Sequence {
    /// Returns operation number `index`, counted from 0, or None after the last one. A sequence has at most 3 operations. The medium is
    /// written in units of `unit` and has sectors of `sector` bytes, or none if `sector` is 0.
    pub fn operation(self, unit: Unit, sector: u32, index: usize) -> Option<Op> {
        match self {
            Sequence::Close { slot } => close_op(unit, sector, slot, index),
            Sequence::Put {
                slot,
                end,
                held,
                block,
            } => {
                let at = held_from(unit, sector, slot, end, held);
                put_op(unit, at, held, block, index)
            }
            Sequence::Commit { slot, end, held } => {
                let at = held_from(unit, sector, slot, end, held);
                commit_op(unit, sector, slot, at, held, index)
            }
            Sequence::Image { from, image } => image_op(unit, sector, from, image, index),
        }
    }
}
