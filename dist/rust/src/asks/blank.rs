// Of crates/dfu_asks/src/blank.rt, whose contracts are taken away.

//! Check for flash that was never written, so that a program can tell a new board from a damaged one.

use crate::asks::Mapped;
use crate::asks::gates::gate_room;
use crate::slots::{flash_byte_at, is_sized};

// Returns true if the `len` bytes from `at` on are FFh.
fn is_erased(flash: &[u8], at: usize, len: usize) -> bool {
    let mut rest = &flash[at..at + len];
    while !rest.is_empty() {
        if flash_byte_at(rest, 0) != 0xff {
            return false;
        }
        rest = &rest[1..];
    }
    true
}

impl<'m> Mapped<'m> {
    /// Returns true if the flash reads as if it was never written, which means that every byte of the gates and the headers of both slots
    /// is FFh; there is no active image then. The data of the slots is not checked.
    ///
    /// None exactly if the size of the flash cannot be divided into two slots.
    pub fn is_blank(&self) -> Option<bool> {
        if !is_sized(self) {
            return None;
        }
        let front = 2 * gate_room(self.unit, self.sector) as usize;
        if !is_erased(self.bytes, 0, front) {
            return Some(false);
        }
        Some(is_erased(self.bytes, self.bytes.len() / 2, front))
    }
}
