// Of crates/dfu_asks/src/format.rt, whose contracts are taken away.

//! The calls of a format that requests its writes from the caller.

use crate::asks::cut::{Cut, cut_at, fill, stands};
use crate::asks::format_piece::{filled_len, inputs_for, part_piece};
use crate::asks::next_and_took::is_sound;
use crate::asks::{FlashOp, FormatProgress, FormatStep, Formatting, MAX_PROGRAM, Mapped, Sector};
use crate::slots::{FormatFault, Unit, WriteFault, capacity_of, is_sized};
use crate::suffix::Crc;

// Largest number of bytes of an image: 16 MiB.
const MOST_IMAGE: usize = 0x100_0000;

// Number of bytes of the image in each part of the format.
const PART: usize = 4096;

// Returns the CRC register over an image.
fn register_of(image: &[u8]) -> u32 {
    let mut crc = Crc::new();
    crc.update_small(image);
    crc.value()
}

// Returns the first fault that prevents a format of this flash with this image, if there is one.
fn fault_of(flash: &[u8], unit: Unit, sector: Sector, image: &[u8]) -> Option<FormatFault> {
    let Some(medium) = Mapped::with_sector(flash, unit, sector) else {
        return Some(FormatFault::WrongSize);
    };
    if !is_sized(&medium) {
        return Some(FormatFault::WrongSize);
    }
    if image.len() > capacity_of(&medium) as usize {
        return Some(FormatFault::TooLarge);
    }
    None
}

// Returns the part that follows `phase` when a medium is formatted with an image of `len` bytes.
fn part_after(phase: FormatStep, unit: Unit, len: usize) -> FormatStep {
    match phase {
        FormatStep::CloseSecond => FormatStep::CloseFirst,
        FormatStep::CloseFirst => {
            if len == 0 {
                FormatStep::Header
            } else {
                FormatStep::Image { from: 0 }
            }
        }
        FormatStep::Image { from } => {
            // Adding in 64 bits keeps a damaged `from` from wrapping on a processor with a 32-bit usize.
            let next = from as u64 + PART as u64;
            if next < filled_len(unit, len) as u64 {
                FormatStep::Image { from: next as u32 }
            } else {
                FormatStep::Header
            }
        }
        FormatStep::Header => FormatStep::Gate,
        FormatStep::Gate => FormatStep::Ended,
        FormatStep::Ended => FormatStep::Ended,
    }
}

impl Formatting {
    /// Begins a format that writes `image` into the first slot of `flash` and makes it the active image. The old contents of the flash
    /// don't matter.
    ///
    /// # Errors
    ///
    /// `WrongSize` if `Slots::format` would reject the size of the flash, or the flash has 2^32 bytes or more; `TooLarge` if the image has
    /// more bytes than a slot's data. They are checked in this order.
    pub fn start(
        flash: &[u8],
        unit: Unit,
        sector: Sector,
        image: &[u8],
    ) -> Result<Formatting, FormatFault> {
        if let Some(fault) = fault_of(flash, unit, sector, image) {
            return Err(fault);
        }
        Ok(Formatting {
            unit,
            sector,
            register: register_of(image),
            phase: FormatStep::CloseSecond,
            done: 0,
        })
    }

    // Returns true if a piece of the current part is left; `cut` then contains the next piece.
    fn due(&self, flash: &[u8], cut: &mut Cut<'_>) -> bool {
        if flash.len() > 0xffff_ffff || cut.inputs.block.len() > MOST_IMAGE {
            return false;
        }
        part_piece(self, flash.len(), cut)
    }

    /// Returns the next piece to carry out: at most 256 bytes to program, or one sector to erase. The piece lies within the flash, even if
    /// the kept state was damaged. The bytes of a program are at the front of `out`. `image` must be the image with which the format began.
    ///
    /// None if no write is pending, if the range of the piece is not within the flash, or if the kept state would erase less than a sector;
    /// `out` is unchanged then. After `start` or `took` requested a write, the result is Some if the pieces before this one are on the
    /// flash.
    pub fn next(&self, flash: &[u8], image: &[u8], out: &mut [u8; MAX_PROGRAM]) -> Option<FlashOp> {
        let mut cut = cut_at(inputs_for(self, image), self.done);
        if !self.due(flash, &mut cut) {
            return None;
        }
        let piece = cut.piece;
        if !is_sound(self.sector, piece) {
            return None;
        }
        if piece.at + piece.len as u64 > flash.len() as u64 {
            return None;
        }
        fill(&cut, out);
        Some(piece)
    }

    /// Reports that the program carried out the piece that `next` returned, or that the piece `failed`. The call reads the piece's range
    /// back from the flash; after an erase, the whole sector must be FFh.
    ///
    /// None if no write is pending. Nothing changes then.
    pub fn took(&mut self, flash: &[u8], image: &[u8], failed: bool) -> Option<FormatProgress> {
        let mut cut = cut_at(inputs_for(self, image), self.done);
        if !self.due(flash, &mut cut) {
            return None;
        }
        if failed {
            self.phase = FormatStep::Ended;
            return Some(FormatProgress::Broken(WriteFault::Failed));
        }
        if !stands(flash, &cut) {
            self.phase = FormatStep::Ended;
            return Some(FormatProgress::Broken(WriteFault::NotVerified));
        }
        self.done += cut.piece.len as u32;
        Some(self.advance(flash.len(), image))
    }

    // Requests the next piece of the current part, or ends the part if none is left. The flash has `size` bytes.
    fn advance(&mut self, size: usize, image: &[u8]) -> FormatProgress {
        let mut cut = cut_at(inputs_for(self, image), self.done);
        if part_piece(self, size, &mut cut) {
            return FormatProgress::Asks;
        }
        self.go_on(image)
    }

    // Begins the next part after a complete part, or ends the format after the last part.
    fn go_on(&mut self, image: &[u8]) -> FormatProgress {
        let behind = part_after(self.phase, self.unit, image.len());
        self.phase = behind;
        self.done = 0;
        match behind {
            FormatStep::Ended => FormatProgress::Formatted,
            _ => FormatProgress::Asks,
        }
    }
}
