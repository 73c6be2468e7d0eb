// Of crates/dfu_asks/src/next_piece.rt, whose contracts are taken away.

//! The next piece of the writes of a job. The operations of slots are cut into erases of a sector and programs of at most 256 bytes.

use crate::asks::cut::Cut;
use crate::asks::sector::{Position, locate};
use crate::asks::{FlashOp, SlotWrite};
use crate::slots::{MAX_OPERATIONS, Op, Sequence, Source, VERSION, make_header};

/// Largest number of bytes that are programmed at a time.
pub const MAX_PROGRAM: usize = 256;

// Sets the piece of `cut` to an erase of `len` bytes at offset `at`.
fn find_erase(at: u64, len: usize, cut: &mut Cut<'_>) {
    cut.piece = FlashOp {
        erases: true,
        at,
        len,
    };
}

// Returns true if the next piece belongs to the erase of the sector at `at`. `cut` then contains the piece; else the search continues after
// the erase.
fn erase_piece(at: u64, cut: &mut Cut<'_>) -> bool {
    let sector = cut.inputs.sector.size() as usize;
    if cut.rest < sector {
        find_erase(at + cut.rest as u64, sector - cut.rest, cut);
        return true;
    }
    cut.rest -= sector;
    false
}

// Returns true if the next piece belongs to a write of `len` bytes at `at`, or to its erases. The write's bytes are those of `source` after
// its first `skip` bytes. `cut` then contains the piece; else the search continues after the write.
fn write_piece(at: u64, source: Source, skip: usize, len: usize, cut: &mut Cut<'_>) -> bool {
    match locate(cut.inputs.sector, at, len, cut.rest) {
        Position::Erase { place, len } => {
            find_erase(place, len, cut);
            true
        }
        Position::Program { from } => {
            cut.piece = FlashOp {
                erases: false,
                at: at + from as u64,
                len: (len - from).min(MAX_PROGRAM),
            };
            cut.source = source;
            cut.from = skip + from;
            true
        }
        Position::Behind { rest } => {
            cut.rest = rest;
            false
        }
    }
}

/// Returns true if the next piece belongs to operation number `index` of `sequence`. `cut` then contains the piece; else the search
/// continues after that operation, if there is one.
pub(crate) fn numbered_piece(sequence: Sequence, index: usize, cut: &mut Cut<'_>) -> bool {
    match sequence.operation(cut.inputs.unit, cut.inputs.sector.size(), index) {
        None => false,
        Some(Op::Erase { at }) => erase_piece(at, cut),
        Some(
            Op::Program {
                at,
                source,
                skip,
                len,
            },
        ) => write_piece(at, source, skip as usize, len as usize, cut),
    }
}

/// Returns true if the next piece belongs to an operation of `sequence`. `cut` then contains the piece; else the search continues after the
/// operations.
pub(crate) fn sequence_piece(sequence: Sequence, cut: &mut Cut<'_>) -> bool {
    for index in 0..MAX_OPERATIONS {
        if numbered_piece(sequence, index, cut) {
            return true;
        }
    }
    false
}

// Returns true if `close` is true and the next piece belongs to the closing of the gate of the slot at `spare`. `cut` then contains the
// piece.
fn close_piece(spare: u32, close: bool, cut: &mut Cut<'_>) -> bool {
    close && sequence_piece(Sequence::Close { slot: spare }, cut)
}

// Returns true if the next piece belongs to the writes of a block. `cut` then contains the piece.
fn block_piece(spare: u32, close: bool, cut: &mut Cut<'_>) -> bool {
    if close_piece(spare, close, cut) {
        return true;
    }
    let sequence = Sequence::Put {
        slot: spare,
        end: cut.inputs.put_end,
        held: cut.inputs.held.len() as u16,
        block: cut.inputs.block.len() as u16,
    };
    sequence_piece(sequence, cut)
}

// Returns true if the next piece belongs to the writes of a commit. `cut` then contains the piece.
fn commit_piece(spare: u32, generation: u8, register: u32, cut: &mut Cut<'_>) -> bool {
    let end = cut.inputs.put_end;
    cut.front = make_header(VERSION, generation, end, register);
    let sequence = Sequence::Commit {
        slot: spare,
        end,
        held: cut.inputs.held.len() as u16,
    };
    sequence_piece(sequence, cut)
}

/// Returns true if a piece of the writes of `job` is left. `cut` then contains the next piece.
pub(crate) fn next_piece(job: SlotWrite, cut: &mut Cut<'_>) -> bool {
    match job {
        SlotWrite::Block { spare, close } => block_piece(spare, close, cut),
        SlotWrite::Commit {
            spare,
            generation,
            register,
        } => commit_piece(spare, generation, register, cut),
    }
}
