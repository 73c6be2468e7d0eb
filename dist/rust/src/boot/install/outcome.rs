// Of crates/dfu_boot/src/install/outcome.rt, whose contracts are taken away.

//! Check of an operation after it was carried out.

use crate::boot::install::area::{PROGRAM, are_blank, is_run_area};
use crate::boot::install::compare::first_difference;
use crate::boot::install::due::Due;

// Returns true if the sector at offset `at` lies in the run area, and all its bytes are FFh.
fn is_erased(run: &[u8], sector: u32, at: u32) -> bool {
    at as u64 + sector as u64 <= run.len() as u64 && are_blank(run, at, at + sector)
}

// Returns true if the piece at offset `at` lies in the run area, and its bytes up to the end of the image equal those of the image.
fn is_programmed(image: &[u8], run: &[u8], at: u32) -> bool {
    let end = at as u64 + PROGRAM as u64;
    if end > run.len() as u64 {
        return false;
    }
    first_difference(image, run, at, end.min(image.len() as u64) as u32).is_none()
}

/// Checks an operation that was carried out, and returns its offset if it succeeded. Pass the result to `next` as `last`.
///
/// `run` holds the bytes of the run area after the operation `due`, and `failed` is true if the flash reported a failure. An erased sector
/// must read FFh, and a programmed piece must equal the image, up to the end of the image. None means that the operation failed or its
/// bytes differ, that its range is not in the run area, that `due` is not an operation, or that `next` refuses the run area with
/// `WrongSize`.
pub fn took(image: &[u8], run: &[u8], sector: u32, due: Due, failed: bool) -> Option<u32> {
    if failed || !is_run_area(run.len(), sector) {
        return None;
    }
    match due {
        Due::Erase(at) if is_erased(run, sector, at) => Some(at),
        Due::Program(at) if is_programmed(image, run, at) => Some(at),
        _ => None,
    }
}
