// Of crates/dfu_boot/src/install/compare.rt, whose contracts are taken away.

//! Offsets at which a run area differs from an image.

use crate::slots::flash_byte_at;

fn is_same(image: &[u8], run: &[u8], at: usize) -> bool {
    flash_byte_at(run, at) == flash_byte_at(image, at)
}

// Returns true only if the bytes `at..at + 4` of the image and the run area are equal. The contract states nothing for the result false.
fn are_four_same(image: &[u8], run: &[u8], at: u32) -> bool {
    let at = at as usize;
    is_same(image, run, at)
        && is_same(image, run, at + 1)
        && is_same(image, run, at + 2)
        && is_same(image, run, at + 3)
}

/// Returns the index of the first byte in `from..to` at which `image` and `run` differ, or None if they are equal there.
pub(crate) fn first_difference(image: &[u8], run: &[u8], from: u32, to: u32) -> Option<u32> {
    let mut at = from;
    // Comparing four bytes at a time takes half as many instructions as one at a time.
    while at < to && to - at >= 4 && are_four_same(image, run, at) {
        at += 4;
    }
    while at < to {
        if !is_same(image, run, at as usize) {
            return Some(at);
        }
        at += 1;
    }
    None
}

/// Returns the index of the first byte of `image` from `from` on that differs in `run`. If there is none, the search begins again at index
/// 0. None means that the run area holds the whole image.
pub(crate) fn next_difference(image: &[u8], run: &[u8], from: u32) -> Option<u32> {
    match first_difference(image, run, from, image.len() as u32) {
        Some(at) => Some(at),
        None => first_difference(image, run, 0, from),
    }
}
