// Of crates/dfu_slots/src/puts.rt, whose contracts are taken away.

//! Bytes put since `begin`: each put writes the whole units, and holds the rest back.

use crate::slots::carry::Sources;
use crate::slots::layout::MAX_UNIT;
use crate::slots::sequence::Sequence;
use crate::slots::{Medium, Unit, WriteFault};
use arrayvec::ArrayVec;

/// State of the bytes put since `begin`. Their whole units are written, and the rest is held back.
#[derive(Debug, PartialEq, Eq)]
pub struct Puts {
    /// Bytes held back. Their number is less than a unit.
    pub held: ArrayVec<u8, MAX_UNIT>,
    /// Offset in the spare's data at which the bytes put so far end.
    pub end: u32,
}

impl Puts {
    /// Returns the state before the first put: no bytes held back, and an end of 0.
    pub(crate) fn nothing() -> Puts {
        Puts {
            held: ArrayVec::new(),
            end: 0,
        }
    }

    /// Discards all bytes put: none is held back, and the end is 0.
    pub(crate) fn clear(&mut self) {
        self.held.clear();
        self.end = 0;
    }
}

// Appends `bytes` to the bytes held back.
fn hold(held: &mut ArrayVec<u8, MAX_UNIT>, bytes: &[u8]) {
    let _ = held.try_extend_from_slice(bytes);
}

/// Appends `bytes` to `held`, and then removes all whole units from its front.
pub(crate) fn hold_rest(held: &mut ArrayVec<u8, MAX_UNIT>, unit: Unit, bytes: &[u8]) {
    let all = held.len() + bytes.len();
    let rest = all % unit.size() as usize;
    if rest == all {
        hold(held, bytes);
        return;
    }
    held.clear();
    hold(held, &bytes[bytes.len() - rest..]);
}

/// Puts `bytes` after `held` into the data of the slot that begins at `slot`. `end` is the offset in the data at which the held bytes end.
/// Writes the unit that the held bytes begin, if `bytes` fill it, then all other whole units in one write, and holds the rest back.
pub(crate) fn put_units<M: Medium>(
    medium: &mut M,
    held: &mut ArrayVec<u8, MAX_UNIT>,
    slot: u32,
    end: u32,
    bytes: &[u8],
) -> Result<(), WriteFault> {
    let unit = medium.unit();
    let front = held.as_slice();
    let sequence = Sequence::Put {
        slot,
        end,
        held: front.len() as u16,
        block: bytes.len() as u16,
    };
    let from = Sources {
        held: front,
        block: bytes,
        header: &[0; 16],
    };
    match from.carry_out(medium, sequence) {
        Err(fault) => Err(fault),
        Ok(()) => {
            hold_rest(held, unit, bytes);
            Ok(())
        }
    }
}
