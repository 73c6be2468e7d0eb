// Of crates/dfu_slots/src/sim.rt, whose contracts are taken away.

//! A simulated medium in RAM.

use crate::slots::noted::{LastWrites, WriteNote, ended};
use crate::slots::{Failed, Faulty, Medium, Unit};
use arrayvec::ArrayVec;
use crate::memory::{AllocError, Global, Vec};
use thiserror::Error;

/// There is not enough memory for the medium.
#[derive(Clone, Copy, Debug, PartialEq, Eq, Error)]
#[error("out of memory")]
pub struct NoMemory;

impl From<AllocError> for NoMemory {
    fn from(_: AllocError) -> NoMemory {
        NoMemory
    }
}

/// Kinds of behaviour of the next writes. `writes` is the count in `SimFuse`.
#[derive(Clone, Copy, Debug, PartialEq, Eq)]
pub enum Mode {
    /// All writes work.
    Whole,
    /// The next `writes` writes work, and the one after them fails.
    Armed,
    /// The next `writes` writes work. The write after them lies: it may store other bytes, but returns Ok.
    Lying,
    /// All writes fail.
    Stopped,
}

/// State that decides how the next writes behave, and the count of writes that failed or lied.
#[derive(Debug, PartialEq, Eq)]
pub struct SimFuse {
    failures: u64,
    mode: Mode,
    writes: u32,
    tear: ArrayVec<u8, 4096>,
    stop: bool,
}

impl SimFuse {
    /// Returns true if the medium is armed so that the next write lies.
    fn lies(&self) -> bool {
        matches!(self.mode, Mode::Lying) && self.writes == 0
    }
}

/// A simulated medium in RAM that can be armed to fail or to lie.
#[derive(Debug, PartialEq, Eq)]
pub struct SimMedium {
    bytes: Vec<u8>,
    fuse: SimFuse,
    unit: Unit,
    sector: u32,
    // Content of an erased sector: FFh in every byte.
    blank: Vec<u8>,
    noted: LastWrites,
}

impl SimMedium {
    /// Returns a medium of `len` bytes FFh that is overwritten in place, byte by byte. It is not armed.
    pub fn new(alloc: Global, len: u32) -> Result<SimMedium, NoMemory> {
        SimMedium::with_unit(alloc, len, Unit::Byte)
    }

    /// Returns a medium of `len` bytes FFh that is overwritten in place in units of `unit`. `len` must be a multiple of the unit. The
    /// medium is not armed.
    ///
    /// # What the caller must keep to
    ///
    /// - `len` is a multiple of the unit's size.
    pub fn with_unit(alloc: Global, len: u32, unit: Unit) -> Result<SimMedium, NoMemory> {
        debug_assert!(len % unit.size() == 0);
        SimMedium::with_sectors(alloc, len, unit, 0)
    }

    /// Returns a medium of `len` bytes FFh that is written in units of `unit` and erased in sectors of `sector` bytes; with 0 it is
    /// overwritten in place. `len` must be a multiple of the unit. The medium is not armed. The fuse counts an erase like a write.
    ///
    /// # What the caller must keep to
    ///
    /// - `len` is a multiple of the unit's size.
    pub fn with_sectors(
        alloc: Global,
        len: u32,
        unit: Unit,
        sector: u32,
    ) -> Result<SimMedium, NoMemory> {
        debug_assert!(len % unit.size() == 0);
        let mut bytes = Vec::new(alloc);
        bytes.resize(len as usize, 0xff)?;
        let mut blank = Vec::new(alloc);
        blank.resize(sector as usize, 0xff)?;
        Ok(SimMedium {
            bytes,
            fuse: SimFuse {
                failures: 0,
                mode: Mode::Whole,
                writes: 0,
                tear: ArrayVec::new(),
                stop: false,
            },
            unit,
            sector,
            blank,
            noted: LastWrites::none(),
        })
    }

    /// Returns the record of the last writes, for a trace.
    pub fn noted(&self) -> &LastWrites {
        &self.noted
    }
}

// Copies `new` into the medium's bytes, beginning at offset `at`.
fn write_over(bytes: &mut Vec<u8>, at: usize, new: &[u8]) {
    bytes[at..at + new.len()].copy_from_slice(new);
}

// Writes `new` at offset `at`, and subtracts one from the number of writes that work before one fails or lies.
fn write_counted(bytes: &mut Vec<u8>, fuse: &mut SimFuse, at: usize, new: &[u8]) {
    fuse.writes -= 1;
    write_over(bytes, at, new);
}

// Writes the first bytes of `tear` at offset `at`, at most `len` bytes.
fn tear_front(bytes: &mut Vec<u8>, at: usize, tear: &[u8], len: usize) {
    write_over(bytes, at, &tear[..len.min(tear.len())]);
}

// Returns the behaviour of the writes after a failed one: if `stop` is true all of them fail too, otherwise all work.
fn after_tear(stop: bool) -> Mode {
    if stop { Mode::Stopped } else { Mode::Whole }
}

// Returns a copy of the first 4,096 bytes of `tear`, or of the whole `tear` if it is shorter.
fn keep_tear(tear: &[u8]) -> ArrayVec<u8, 4096> {
    let mut kept = ArrayVec::new();
    let most: usize = 4096;
    let _ = kept.try_extend_from_slice(&tear[..most.min(tear.len())]);
    kept
}

// Writes `new` at offset `at`. The fuse decides if the write works, fails or lies, and which bytes a failed or lying write leaves.
fn change(bytes: &mut Vec<u8>, fuse: &mut SimFuse, at: usize, new: &[u8]) -> Result<(), Failed> {
    match fuse.mode {
        Mode::Whole => {
            write_over(bytes, at, new);
            Ok(())
        }
        Mode::Armed if fuse.writes > 0 => {
            write_counted(bytes, fuse, at, new);
            Ok(())
        }
        Mode::Armed => {
            tear_front(bytes, at, fuse.tear.as_slice(), new.len());
            fuse.failures = fuse.failures.saturating_add(1);
            fuse.mode = after_tear(fuse.stop);
            Err(Failed)
        }
        Mode::Lying if fuse.writes > 0 => {
            write_counted(bytes, fuse, at, new);
            Ok(())
        }
        Mode::Lying => {
            tear_front(bytes, at, fuse.tear.as_slice(), new.len());
            fuse.failures = fuse.failures.saturating_add(1);
            fuse.mode = Mode::Whole;
            Ok(())
        }
        Mode::Stopped => {
            fuse.failures = fuse.failures.saturating_add(1);
            Err(Failed)
        }
    }
}

impl Medium for SimMedium {
    fn len(&self) -> u32 {
        self.bytes.len() as u32
    }

    fn unit(&self) -> Unit {
        self.unit
    }

    fn sector(&self) -> u32 {
        self.sector
    }

    fn read(&self, at: u32, out: &mut [u8]) {
        let from = at as usize;
        out.copy_from_slice(&self.bytes[from..from + out.len()]);
    }

    fn write(&mut self, at: u32, bytes: &[u8]) -> Result<(), Failed> {
        let lies = self.fuse.lies();
        let answer = change(&mut self.bytes, &mut self.fuse, at as usize, bytes);
        self.noted.add(WriteNote {
            erases: false,
            at,
            len: bytes.len() as u32,
            end: ended(lies, answer),
        });
        answer
    }

    fn erase(&mut self, at: u32) -> Result<(), Failed> {
        let lies = self.fuse.lies();
        let answer = change(
            &mut self.bytes,
            &mut self.fuse,
            at as usize,
            self.blank.as_slice(),
        );
        self.noted.add(WriteNote {
            erases: true,
            at,
            len: self.sector,
            end: ended(lies, answer),
        });
        answer
    }
}

impl Faulty for SimMedium {
    fn arm(&mut self, writes: u32, tear: &[u8], stop: bool) {
        self.fuse.tear = keep_tear(tear);
        self.fuse.mode = Mode::Armed;
        self.fuse.writes = writes;
        self.fuse.stop = stop;
    }

    fn arm_lie(&mut self, writes: u32, tear: &[u8]) {
        self.fuse.tear = keep_tear(tear);
        self.fuse.mode = Mode::Lying;
        self.fuse.writes = writes;
    }

    fn disarm(&mut self) {
        self.fuse.mode = Mode::Whole;
    }
}
