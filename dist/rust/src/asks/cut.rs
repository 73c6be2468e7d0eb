// Of crates/dfu_asks/src/cut.rt, whose contracts are taken away.

//! The next piece of a series of writes. Its bytes are located as runs of memory, copied to a buffer, and compared with the flash.

use crate::asks::next_piece::{MAX_PROGRAM, next_piece};
use crate::asks::pending_writes::WriteInputs;
use crate::asks::{Asking, FlashOp, PendingWrites};
use crate::slots::{OPEN_GATE, Source, flash_byte_at};

/// A search for the next piece of a series of writes, and the piece once it is found.
#[derive(Clone, Copy, Debug, PartialEq, Eq)]
pub(crate) struct Cut<'a> {
    pub(crate) inputs: WriteInputs<'a>,
    /// Number of bytes that are already written, counted from the first write that the search hasn't passed yet.
    pub(crate) rest: usize,
    /// Bytes of the header, if the writes include one.
    pub(crate) front: [u8; 16],
    /// The piece, once it is found.
    pub(crate) piece: FlashOp,
    /// Source of the bytes that the piece programs. It has no meaning for an erase.
    pub(crate) source: Source,
    /// Offset of the piece in its source.
    pub(crate) from: usize,
}

/// Returns a search for the next piece after `done` bytes of the writes with the inputs `inputs`.
pub(crate) fn cut_at<'a>(inputs: WriteInputs<'a>, done: u32) -> Cut<'a> {
    Cut {
        inputs,
        rest: done as usize,
        front: [0; 16],
        piece: FlashOp {
            erases: false,
            at: 0,
            len: 0,
        },
        source: Source::Closed,
        from: 0,
    }
}

/// Bytes in two slices, followed by bytes of a single value.
#[derive(Clone, Copy, Debug, PartialEq, Eq)]
struct Runs<'a> {
    front: &'a [u8],
    back: &'a [u8],
    /// Number of bytes after the two slices.
    rest: usize,
    /// Value of each byte after the two slices.
    pad: u8,
}

// Returns at most `most` bytes of a slice, after its first `skip` bytes.
fn run<'a>(bytes: &'a [u8], skip: usize, most: usize) -> &'a [u8] {
    let skip = skip.min(bytes.len());
    let len = most.min(bytes.len() - skip);
    &bytes[skip..skip + len]
}

// Joins two slices and 256 zeros after them, and returns `len` bytes of the result, after its first `skip` bytes.
fn runs_in<'a>(front: &'a [u8], back: &'a [u8], skip: usize, len: usize) -> Runs<'a> {
    let first = run(front, skip, len);
    let left = len - first.len();
    let second = run(back, skip.saturating_sub(front.len()), left);
    Runs {
        front: first,
        back: second,
        rest: left - second.len(),
        pad: 0,
    }
}

// Returns the two slices that make up the source of a piece, in order; `gate` is the byte of an open gate.
fn source_slices<'a>(cut: &'a Cut<'_>, gate: &'a [u8; 1]) -> (&'a [u8], &'a [u8]) {
    match cut.source {
        Source::Joined => (cut.inputs.held, cut.inputs.block),
        Source::Held => (cut.inputs.held, &[]),
        Source::Header => (&cut.front, &[]),
        Source::Opened => (gate, &[]),
        Source::Closed => (&[], &[]),
    }
}

/// Returns the bytes of the piece that `cut` has found, with `gate` as the byte of an open gate.
fn runs_of<'a>(cut: &'a Cut<'_>, gate: &'a [u8; 1]) -> Runs<'a> {
    let len = cut.piece.len;
    if cut.piece.erases {
        return Runs {
            front: &[],
            back: &[],
            rest: len,
            pad: 0xff,
        };
    }
    let (front, back) = source_slices(cut, gate);
    runs_in(front, back, cut.from, len)
}

// Returns true if bytes of flash equal those of a slice. A loop takes less code than `==`.
fn are_same(one: &[u8], other: &[u8]) -> bool {
    for i in 0..one.len() {
        if flash_byte_at(one, i) != other[i] {
            return false;
        }
    }
    true
}

// Returns true if each of these bytes of flash is `byte`.
fn are_all(bytes: &[u8], byte: u8) -> bool {
    for i in 0..bytes.len() {
        if flash_byte_at(bytes, i) != byte {
            return false;
        }
    }
    true
}

impl Runs<'_> {
    /// Returns true if `bytes` of flash are the bytes of the piece.
    pub(crate) fn are(self, bytes: &[u8]) -> bool {
        let middle = self.front.len();
        let end = middle + self.back.len();
        if !are_same(&bytes[..middle], self.front) {
            return false;
        }
        if !are_same(&bytes[middle..end], self.back) {
            return false;
        }
        are_all(&bytes[end..end + self.rest], self.pad)
    }
}

/// Writes the bytes of the piece that `cut` found to the front of `out`. For an erase, writes at most 256 bytes FFh.
pub(crate) fn fill(cut: &Cut<'_>, out: &mut [u8; MAX_PROGRAM]) {
    let runs = runs_of(cut, &[OPEN_GATE]);
    let middle = runs.front.len();
    let end = middle + runs.back.len();
    let len = cut.piece.len.min(MAX_PROGRAM);
    out[..middle].copy_from_slice(runs.front);
    out[middle..end].copy_from_slice(runs.back);
    out[end..len].fill(runs.pad);
}

/// Returns true if `flash` contains the bytes of the piece that `cut` found, which are FFh for an erase.
pub(crate) fn stands(flash: &[u8], cut: &Cut<'_>) -> bool {
    let piece = cut.piece;
    if piece.at + piece.len as u64 > flash.len() as u64 {
        return false;
    }
    let at = piece.at as usize;
    runs_of(cut, &[OPEN_GATE]).are(&flash[at..at + piece.len])
}

impl Asking {
    /// Returns the bytes that are held back, from the front of their memory `held`.
    pub(crate) fn held_in<'a>(&self, held: &'a [u8]) -> &'a [u8] {
        &held[..self.held_len.min(held.len())]
    }

    /// Returns the inputs from which the writes of a job are computed.
    pub(crate) fn inputs<'a>(&self, block: &'a [u8], held: &'a [u8]) -> WriteInputs<'a> {
        WriteInputs {
            unit: self.unit,
            sector: self.sector,
            put_end: self.put_end,
            held: self.held_in(held),
            block: &block[..self.block_len.min(block.len())],
        }
    }

    /// Returns the number of bytes of the next piece of `work`, and true if `flash` contains them; 0 and false if no piece is left.
    pub(crate) fn look_at(
        &self,
        work: &PendingWrites,
        block: &[u8],
        held: &[u8],
        flash: &[u8],
    ) -> (usize, bool) {
        let mut cut = cut_at(self.inputs(block, held), work.done);
        if !next_piece(work.job, &mut cut) {
            return (0, false);
        }
        (cut.piece.len, stands(flash, &cut))
    }
}
