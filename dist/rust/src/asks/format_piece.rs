// Of crates/dfu_asks/src/format_piece.rt, whose contracts are taken away.

//! The next piece of a format.

use crate::asks::cut::Cut;
use crate::asks::next_piece::{numbered_piece, sequence_piece};
use crate::asks::pending_writes::WriteInputs;
use crate::asks::{FormatStep, Formatting};
use crate::slots::{Sequence, Unit, VERSION, make_header};

/// Returns the length of an image of `len` bytes after it is filled up to whole units of `unit`.
pub(crate) fn filled_len(unit: Unit, len: usize) -> usize {
    let size = unit.size() as usize;
    len + (size - len % size) % size
}

/// Returns the inputs from which the writes of a format are computed, with the image as the block.
pub(crate) fn inputs_for<'a>(formatting: &Formatting, image: &'a [u8]) -> WriteInputs<'a> {
    WriteInputs {
        unit: formatting.unit,
        sector: formatting.sector,
        put_end: 0,
        held: &[],
        block: image,
    }
}

// Returns true if the next piece belongs to the header of the first slot (`index` 1), or to the open gate that is written after the header
// (`index` 2). `cut` then contains that piece.
fn open_piece(index: usize, register: u32, cut: &mut Cut<'_>) -> bool {
    cut.front = make_header(VERSION, 0, cut.inputs.block.len() as u32, register);
    let sequence = Sequence::Commit {
        slot: 0,
        end: 0,
        held: 0,
    };
    numbered_piece(sequence, index, cut)
}

/// Returns true if a piece of the current part of a format is left, on a flash of `size` bytes. `cut` then contains the next piece.
pub(crate) fn part_piece(formatting: &Formatting, size: usize, cut: &mut Cut<'_>) -> bool {
    match formatting.phase {
        FormatStep::CloseSecond => sequence_piece(
            Sequence::Close {
                slot: (size / 2) as u32,
            },
            cut,
        ),
        FormatStep::CloseFirst => sequence_piece(Sequence::Close { slot: 0 }, cut),
        FormatStep::Image { from } => {
            let image = cut.inputs.block.len() as u32;
            sequence_piece(Sequence::Image { from, image }, cut)
        }
        FormatStep::Header => open_piece(1, formatting.register, cut),
        FormatStep::Gate => open_piece(2, formatting.register, cut),
        FormatStep::Ended => false,
    }
}
