// Of crates/dfu_asks/src/next_and_took.rt, whose contracts are taken away.

//! The calls for pending writes: `next` returns the next piece, and `took` reports its outcome.

use crate::asks::cut::{cut_at, fill};
use crate::asks::next_piece::next_piece;
use crate::asks::sector::offset_in_sector;
use crate::asks::{Asking, FlashOp, MAX_PROGRAM, Mapped, PendingWrites, Refusal, Reply, Sector};
use crate::slots::{OPEN_GATE, Unit, WriteFault, check, flash_byte_at};

// Returns the offset of the slot that contains offset `at`, if the flash has two slots of `size` bytes each.
fn slot_start(at: u64, size: u64) -> u64 {
    if at < size { 0 } else { size }
}

// Returns true if a range lies within a slot whose gate is not open, or within the spare slot of an active image.
fn is_spare(flash: &[u8], unit: Unit, sector: Sector, at: u64, len: u64) -> bool {
    let half = flash.len() as u64 / 2;
    let slot = slot_start(at, half);
    if at + len > slot + half {
        return false;
    }
    if flash_byte_at(flash, slot as usize) != OPEN_GATE {
        return true;
    }
    let Some(medium) = Mapped::with_sector(flash, unit, sector) else {
        return false;
    };
    match check(&medium) {
        Ok(places) => u64::from(places.spare) == slot,
        Err(_) => {
            false
        }
    }
}

/// Returns true if `piece` programs bytes, or erases one whole sector.
pub(crate) fn is_sound(sector: Sector, piece: FlashOp) -> bool {
    if !piece.erases {
        return true;
    }
    let size = sector.size();
    size > 0 && piece.len == size as usize && offset_in_sector(size, piece.at) == 0
}

// Returns true if the piece didn't fail and the flash contains its bytes.
fn went_well(failed: bool, stands: bool) -> bool {
    !failed && stands
}

// Returns `Failed` for a piece that failed, else `NotVerified`, because the flash doesn't contain its bytes.
fn fault_of(failed: bool) -> WriteFault {
    if failed {
        WriteFault::Failed
    } else {
        WriteFault::NotVerified
    }
}

impl Asking {
    /// Returns the next piece to carry out: at most 256 bytes to program, or one sector to erase. If the flash has an active image now, the
    /// piece lies within the spare slot, even if the kept state was damaged. The bytes of a program are at the front of `out`.
    ///
    /// None if no write is pending, if the range of the piece is not within the spare slot, if the gate of the piece's slot is open and no
    /// image is active, or if the kept state would erase less than a sector; `out` is unchanged then. After a call returned `Asks`, the
    /// result is Some if the pieces before this one are on the flash.
    pub fn next(
        &self,
        block: &[u8],
        held: &[u8],
        flash: &[u8],
        out: &mut [u8; MAX_PROGRAM],
    ) -> Option<FlashOp> {
        let work = self.work?;
        let mut cut = cut_at(self.inputs(block, held), work.done);
        if !next_piece(work.job, &mut cut) {
            return None;
        }
        let piece = cut.piece;
        if !is_sound(self.sector, piece) {
            return None;
        }
        if is_spare(flash, self.unit, self.sector, piece.at, piece.len as u64) {
            fill(&cut, out);
            Some(piece)
        } else {
            None
        }
    }

    /// Reports that the program carried out the piece that `next` returned, or that the piece `failed`. The call reads the piece's range
    /// back from the flash; after an erase, the whole sector must be FFh.
    ///
    /// Returns `Asks` to request the next piece, or the answer of the row, which has ended.
    ///
    /// # Errors
    ///
    /// `NoRoom` if `out` has fewer than 6 bytes; else `NoDevice` if no write is pending. Nothing changes then.
    ///
    /// # What the caller must keep to
    ///
    /// - `held` has room for the bytes of a unit.
    pub fn took(
        &mut self,
        block: &[u8],
        held: &mut [u8],
        flash: &[u8],
        failed: bool,
        out: &mut [u8],
    ) -> Result<Reply, Refusal> {
        debug_assert!(self.unit.size() as usize <= held.len());
        if out.len() < 6 {
            return Err(Refusal::NoRoom);
        }
        let Some(work) = self.work else {
            return Err(Refusal::NoDevice);
        };
        let (len, stands) = self.look_at(&work, block, held, flash);
        if len == 0 {
            return Err(Refusal::NoDevice);
        }
        if !went_well(failed, stands) {
            let (answer, count) = self.fail(fault_of(failed), work.asked, flash, out);
            return Ok(Reply::Answered(answer, count));
        }
        let further = PendingWrites {
            job: work.job,
            asked: work.asked,
            done: work.done + len as u32,
        };
        self.work = Some(further);
        Ok(self.advance(block, held, flash, out))
    }
}
