// Of crates/dfu_boot/src/trial/marks.rt, whose contracts are taken away.

//! Marks of a slot, as read from the medium.

use crate::slots::{Medium, gate_of};

/// Returns the number of bytes of a mark: the write unit, but at least 16.
pub(crate) fn mark_size<M: Medium>(medium: &M) -> u32 {
    medium.unit().size().max(16)
}

/// Returns the offset of mark number `i` in the slot at offset `at`.
pub(crate) fn mark_at<M: Medium>(medium: &M, at: u32, i: u32) -> u32 {
    let _len = medium.len();
    let size = mark_size(medium);
    at + gate_of(medium) + size + i * size
}

fn is_blank(bytes: &[u8]) -> bool {
    bytes.iter().all(|byte| *byte == 0xff)
}

/// Returns true if one of the `len` bytes at offset `at` is not FFh. `len` is at most 256.
pub(crate) fn is_marked<M: Medium>(medium: &M, at: u32, len: u32) -> bool {
    let mut buffer = [0; 256];
    let bytes = &mut buffer[..len as usize];
    medium.read(at, bytes);
    !is_blank(bytes)
}

/// Returns true if mark number `i` of the slot at offset `at` is set.
pub(crate) fn is_set<M: Medium>(medium: &M, at: u32, i: u32) -> bool {
    is_marked(medium, mark_at(medium, at, i), mark_size(medium))
}

/// Returns the number of recorded starts, at most `tries`, of the image in the slot at offset `at`.
pub(crate) fn starts<M: Medium>(medium: &M, tries: u32, at: u32) -> u32 {
    let mut done = 0;
    while done < tries {
        if !is_set(medium, at, done + 1) {
            return done;
        }
        done += 1;
    }
    done
}
