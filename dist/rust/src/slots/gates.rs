// Of crates/dfu_slots/src/gates.rt, whose contracts are taken away.

//! Closes a slot's gate, and opens it after a new header is written.

use crate::slots::carry::Sources;
use crate::slots::sequence::Sequence;
use crate::slots::{Medium, WriteFault};

/// Closes the gate of the slot that begins at `slot`. Without sectors it writes a gate unit of zeros; with sectors it erases the gate's
/// sector.
pub(crate) fn close_gate<M: Medium>(medium: &mut M, slot: u32) -> Result<(), WriteFault> {
    let none = Sources {
        held: &[],
        block: &[],
        header: &[0; 16],
    };
    none.carry_out(medium, Sequence::Close { slot })
}

/// Writes `held`, at most 256 bytes that end at offset `end` of the slot's data, then the header `head`, and then, in a separate write, the
/// open gate. The slot begins at `slot`.
pub(crate) fn open_slot<M: Medium>(
    medium: &mut M,
    slot: u32,
    end: u32,
    held: &[u8],
    head: &[u8; 16],
) -> Result<(), WriteFault> {
    let sequence = Sequence::Commit {
        slot,
        end,
        held: held.len() as u16,
    };
    let from = Sources {
        held,
        block: &[],
        header: head,
    };
    from.carry_out(medium, sequence)
}
