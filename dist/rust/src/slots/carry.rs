// Of crates/dfu_slots/src/carry.rt, whose contracts are taken away.

//! Performs the operations of a change on a medium.

use crate::slots::erasing::erase;
use crate::slots::layout::{MAX_UNIT, OPEN_GATE};
use crate::slots::operation::{Op, Source};
use crate::slots::sequence::{MAX_OPERATIONS, Sequence};
use crate::slots::writes::write_some;
use crate::slots::{Medium, WriteFault};

/// Sources of the bytes that the operations of a change write: the held bytes, the block and the header.
#[derive(Clone, Copy, Debug, PartialEq, Eq)]
pub(crate) struct Sources<'b> {
    /// Bytes held back by earlier puts.
    pub held: &'b [u8],
    /// Block that a `put` writes after the held bytes.
    pub block: &'b [u8],
    /// Header that a `commit` or a `format` writes.
    pub header: &'b [u8; 16],
}

// Returns byte `at` of the concatenation of `front`, `back` and zeros.
fn byte_in(front: &[u8], back: &[u8], at: usize) -> u8 {
    if at < front.len() {
        return front[at];
    }
    let behind = at - front.len();
    if behind < back.len() { back[behind] } else { 0 }
}

// Returns byte `at` of a source, or 0 beyond its end.
fn byte_of(source: Source, held: &[u8], block: &[u8], header: &[u8; 16], at: usize) -> u8 {
    match source {
        Source::Joined => byte_in(held, block, at),
        Source::Held => byte_in(held, &[], at),
        Source::Header => byte_in(header, &[], at),
        Source::Opened => byte_in(&[OPEN_GATE], &[], at),
        Source::Closed => byte_in(&[], &[], at),
    }
}

impl Sources<'_> {
    // Copies `len` bytes of a source to the front of `out`, beginning with byte `skip` of the source.
    fn gather(self, source: Source, skip: usize, len: usize, out: &mut [u8; MAX_UNIT]) {
        for i in 0..len {
            out[i] = byte_of(source, self.held, self.block, self.header, skip + i);
        }
    }

    // Writes `len` bytes of a source, at most 256, beginning with its byte `skip`. First erases the sectors that begin in the range. Writes
    // nothing if `len` is 0.
    fn write_gathered<M: Medium>(
        self,
        medium: &mut M,
        at: u32,
        source: Source,
        skip: usize,
        len: usize,
    ) -> Result<(), WriteFault> {
        let mut unit = [0; MAX_UNIT];
        self.gather(source, skip, len, &mut unit);
        write_some(medium, at, &unit[..len])
    }

    // Writes `len` bytes of the held bytes and the block, beginning with byte `skip` of both together. First erases the sectors that begin
    // in the range. If all these bytes lie in the block, they are written without a copy.
    fn write_joined<M: Medium>(
        self,
        medium: &mut M,
        at: u32,
        skip: usize,
        len: usize,
    ) -> Result<(), WriteFault> {
        let held = self.held;
        if skip < held.len() {
            return self.write_gathered(medium, at, Source::Joined, skip, len);
        }
        let begin = skip - held.len();
        write_some(medium, at, &self.block[begin..begin + len])
    }

    fn carry_op<M: Medium>(self, medium: &mut M, op: Op) -> Result<(), WriteFault> {
        let _end = medium.len();
        match op {
            Op::Erase { at } => erase(medium, at as u32),
            Op::Program {
                at,
                source,
                skip,
                len,
            } => {
                let place = at as u32;
                let skip = skip as usize;
                let len = len as usize;
                match source {
                    Source::Joined => self.write_joined(medium, place, skip, len),
                    _ => self.write_gathered(medium, place, source, skip, len),
                }
            }
        }
    }

    /// Performs the operations of `sequence` on `medium`, in their order.
    ///
    /// # Errors
    ///
    /// The fault of the first write that fails. No later operation is performed.
    pub(crate) fn carry_out<M: Medium>(
        self,
        medium: &mut M,
        sequence: Sequence,
    ) -> Result<(), WriteFault> {
        let unit = medium.unit();
        let sector = medium.sector();
        for index in 0..MAX_OPERATIONS {
            match sequence.operation(unit, sector, index) {
                None => return Ok(()),
                Some(op) => match self.carry_op(medium, op) {
                    Err(fault) => return Err(fault),
                    Ok(()) => {}
                },
            }
        }
        Ok(())
    }
}
