// Of crates/dfu_home/src/bytes.rt, whose contracts are taken away.

//! Comparison of bytes of flash, and the buffer of a unit.

use crate::slots::flash_byte_at;

/// Returns true if bytes of flash equal a slice of the same length. A loop takes less code than `==`.
pub(crate) fn are_same(one: &[u8], other: &[u8]) -> bool {
    for i in 0..one.len() {
        if flash_byte_at(one, i) != other[i] {
            return false;
        }
    }
    true
}

/// Writes `front` to the front of `out`, and zeros after it.
pub(crate) fn fill_up(front: &[u8], out: &mut [u8; 256]) {
    *out = [0; 256];
    out[..front.len()].copy_from_slice(front);
}
