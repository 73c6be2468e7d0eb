// Of crates/dfu_asks/src/sector.rt, whose contracts are taken away.

//! Sectors of a flash, and the position of a search in a write and the erases before it.

use crate::slots::{MAX_SECTOR, PAGE};

/// The number of bytes of flash that are erased at a time: 0 if the flash is overwritten in place, else a multiple of 256 up to 262,144.
#[derive(Clone, Copy, Debug, PartialEq, Eq)]
pub struct Sector {
    size: u32,
}

impl Sector {
    /// Returns the sector of a flash that is overwritten in place and never erased.
    pub fn none() -> Sector {
        Sector { size: 0 }
    }

    /// Returns the sector of `size` bytes; None if `size` is not a multiple of 256, or more than 262,144.
    pub fn new(size: u32) -> Option<Sector> {
        if size % PAGE == 0 && size <= MAX_SECTOR {
            Some(Sector { size })
        } else {
            None
        }
    }

    /// Returns the number of bytes of the sector.
    pub fn size(self) -> u32 {
        self.size
    }
}

/// The position after a number of bytes of a write and of the erases before the write.
#[derive(Clone, Copy, Debug, PartialEq, Eq)]
pub(crate) enum Position {
    /// Within the erase of a sector. The rest of the sector is still to be erased.
    Erase {
        /// Offset of the first byte that is still to be erased.
        place: u64,
        /// Number of bytes that are still to be erased.
        len: usize,
    },
    /// Within the write.
    Program {
        /// Number of bytes already written.
        from: usize,
    },
    /// After the end of the write.
    Behind {
        /// Number of bytes after the end of the write.
        rest: usize,
    },
}

/// Returns the offset of `at` in its sector. Two 32-bit divisions replace a 64-bit one, which a small processor makes by a library call.
pub(crate) fn offset_in_sector(sector: u32, at: u64) -> u32 {
    let high = (at / 16_384) as u32 % sector;
    (high * 16_384 + (at % 16_384) as u32) % sector
}

// Returns the position after `done` bytes of the erases of the sectors that begin in a range.
fn locate_erase(sector: u32, at: u64, len: usize, done: usize) -> Position {
    let size = u64::from(sector);
    let end = at + len as u64;
    let behind = u64::from(offset_in_sector(sector, at));
    let mut place = if behind == 0 {
        at
    } else {
        at + (size - behind)
    };
    let mut rest = done as u64;
    while place < end {
        if rest < size {
            return Position::Erase {
                place: place + rest,
                len: (size - rest) as usize,
            };
        }
        rest -= size;
        place += size;
    }
    Position::Behind {
        rest: rest as usize,
    }
}

// Returns the position after `rest` bytes of a write of `len` bytes without erases.
fn locate_write(len: usize, rest: usize) -> Position {
    if rest < len {
        Position::Program { from: rest }
    } else {
        Position::Behind { rest: rest - len }
    }
}

/// Returns the position after `done` bytes of a write of `len` bytes at `at` and of the erases of the sectors that begin in its range.
#[inline(never)]
pub(crate) fn locate(sector: Sector, at: u64, len: usize, done: usize) -> Position {
    let size = sector.size();
    if size == 0 {
        return locate_write(len, done);
    }
    match locate_erase(size, at, len, done) {
        Position::Behind { rest } => locate_write(len, rest),
        found => found,
    }
}
