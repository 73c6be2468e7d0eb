// Of crates/dfu_home/src/deciding.rt, whose contracts are taken away.

//! Choice of the operation that is due next, by the gate of the first slot.

use crate::home::asking::is_home;
use crate::home::copying::copy;
use crate::home::{CopyRefusal, Due, Progress};
use crate::slots::{Medium, capacity_of, header_of, is_open, is_sized, length_in};

// Returns the largest number of operations that a copy on a medium may take: one for each 128 bytes. A medium without faults needs fewer.
fn most_operations<M: Medium>(medium: &M) -> u32 {
    medium.len() / 128
}

// Returns true if the second slot is open and can hold an image of the length in its header. The first slot must be closed, so that only
// the second can contain the active image.
fn is_copying<M: Medium>(medium: &M) -> bool {
    let second = medium.len() / 2;
    if !is_open(medium, second) {
        return false;
    }
    if length_in(&header_of(medium, second)) > capacity_of(medium) {
        return false;
    }
    true
}

// Returns true if the medium has an active image. After the first operation (`count` over 0), returns true without reading the medium.
fn is_looked<M: Medium>(medium: &M, count: u32) -> bool {
    if count > 0 {
        return true;
    }
    is_home(medium).is_some()
}

// Returns the operation that is due while the gate of the first slot is open.
fn opened<M: Medium>(medium: &M, progress: Progress) -> Due {
    match is_home(medium) {
        None => Due::Refuse(CopyRefusal::NoImage),
        Some(true) => Due::Home,
        Some(false) => {
            if progress.count >= most_operations(medium) {
                return Due::Refuse(CopyRefusal::NotWritten);
            }
            Due::Erase { at: 0 }
        }
    }
}

// Returns the operation that is due while the gate of the first slot is closed, so that only the second slot can have the active image.
fn shut<M: Medium>(medium: &M, flash: &[u8], progress: Progress, out: &mut [u8; 256]) -> Due {
    if !is_looked(medium, progress.count) {
        return Due::Refuse(CopyRefusal::NoImage);
    }
    if !is_copying(medium) {
        return Due::Refuse(CopyRefusal::NoImage);
    }
    if progress.count >= most_operations(medium) {
        return Due::Refuse(CopyRefusal::NotWritten);
    }
    copy(medium, flash, progress.last, out)
}

/// Returns the next operation that copies the active image into the first slot.
///
/// `flash` is the medium's bytes, mapped for reading. After each loss of power, `progress` has no last operation and a count of 0; else it
/// is the result of `took`. For any `progress`, the call returns `Home` only if the active image is in the first slot. Each operation lies
/// in that slot, and the active image stays active even if the operation fails, reports a false success or is cut off. The bytes of a
/// program are at the front of `out`; without a program, `out` is unchanged.
///
/// The refusals are checked in this order: `NoSectors`, `NoImage`, `NotWritten`.
pub fn next<M: Medium>(medium: &M, flash: &[u8], progress: Progress, out: &mut [u8; 256]) -> Due {
    if medium.sector() == 0 {
        return Due::Refuse(CopyRefusal::NoSectors);
    }
    if !is_sized(medium) {
        return Due::Refuse(CopyRefusal::NoImage);
    }
    if is_open(medium, 0) {
        return opened(medium, progress);
    }
    shut(medium, flash, progress, out)
}
