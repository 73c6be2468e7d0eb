// Of crates/dfu_boot/src/install/pieces.rt, whose contracts are taken away.

//! Bytes that a program operation writes.

use crate::slots::read_flash;

// Copies `bytes` to the beginning of `out`, and fills the rest with FFh.
fn fill_up(bytes: &[u8], out: &mut [u8; 256]) {
    *out = [0xff; 256];
    read_flash(bytes, &mut out[..bytes.len()]);
}

/// Fills `out` with the 256 bytes to program at offset `at`: those of the image, and FFh after its end.
pub fn piece(image: &[u8], at: u32, out: &mut [u8; 256]) {
    let rest = &image[(at as usize).min(image.len())..];
    fill_up(&rest[..rest.len().min(256)], out);
}
