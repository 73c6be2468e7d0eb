// Of crates/dfu_boot/src/install/deciding.rt, whose contracts are taken away.

//! Choice of the next operation, by the first offset at which the run area differs from the image.

use crate::boot::install::area::{PROGRAM, are_blank, is_run_area};
use crate::boot::install::compare::next_difference;
use crate::boot::install::due::{Due, InstallRefusal};

// Returns the first offset of the search for a difference: the offset of the last operation, limited to the length of the image, or 0
// without a last operation.
fn look_from(image: &[u8], last: Option<u32>) -> u32 {
    match last {
        Some(at) => at.min(image.len() as u32),
        None => 0,
    }
}

// Returns true if the piece at offset `piece` may be programmed: the piece is blank, and the last operation was in the sector of the piece,
// and not after the piece.
fn may_program(run: &[u8], sector: u32, last: Option<u32>, piece: u32) -> bool {
    match last {
        Some(at) => {
            at <= piece
                && at - at % sector == piece - piece % sector
                && are_blank(run, piece, piece + PROGRAM)
        }
        None => false,
    }
}

// Returns the next operation for the differing byte at `at`: a program of its piece if that is allowed, else an erase of its sector.
fn mend(_image: &[u8], run: &[u8], sector: u32, last: Option<u32>, at: u32) -> Due {
    let piece = at - at % PROGRAM;
    if may_program(run, sector, last, piece) {
        Due::Program(piece)
    } else {
        Due::Erase(at - at % sector)
    }
}

/// Returns the next operation that copies the image to the run area.
///
/// `image` is the image, and `run` the present bytes of the run area, in sectors of `sector` bytes. `last` is the result of `took` for the
/// last operation, and None after each loss of power. For any `last`, Start is returned only if the run area holds the whole image, and
/// each operation lies within the sectors of the image.
///
/// Refused, in this order: `WrongSize`, `NoImage`, `TooLarge`.
pub fn next(image: &[u8], run: &[u8], sector: u32, last: Option<u32>) -> Due {
    if !is_run_area(run.len(), sector) {
        return Due::Refuse(InstallRefusal::WrongSize);
    }
    if image.is_empty() {
        return Due::Refuse(InstallRefusal::NoImage);
    }
    if image.len() > run.len() {
        return Due::Refuse(InstallRefusal::TooLarge);
    }
    match next_difference(image, run, look_from(image, last)) {
        Some(at) => mend(image, run, sector, last, at),
        None => Due::Start,
    }
}
