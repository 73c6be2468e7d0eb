//! The memory of a model of a device: six pages of eight bytes, whose writes can only clear bits.

/// How many bytes the memory has, and a page.
pub const MEMORY: usize = 48;
const PAGE: usize = 8;

/// The byte at a place of a slice, or 0.
pub fn byte_at(bytes: &[u8], at: usize) -> u8 {
    bytes.get(at).copied().unwrap_or(0)
}

/// A page is erased, or its first bytes.
pub fn erase(memory: &mut [u8; MEMORY], at: usize, is_rest: bool) {
    let start = at / PAGE * PAGE;
    let count = if is_rest { PAGE } else { 3 };
    memory[start..start + count].fill(0xff);
}

/// Bytes are written, or the first one.
pub fn write(memory: &mut [u8; MEMORY], at: usize, bytes: &[u8], is_rest: bool) {
    let count = if is_rest { bytes.len() } else { 1 };
    for (cell, byte) in memory.iter_mut().skip(at).zip(&bytes[..count]) {
        *cell &= byte;
    }
}
