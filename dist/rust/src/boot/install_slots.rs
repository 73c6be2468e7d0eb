// Of crates/dfu_boot/src/install_slots.rt, whose contracts are taken away.

//! Next operation that copies the active image of a slot store to a run area.

use crate::boot::install::{Due, next};
use crate::slots::{Medium, Slots};

/// Returns the next operation that copies the active image of the store to the run area: the result of `install::next` for that image.
///
/// `memory` is the store's medium, mapped for reading. The store is not changed.
///
/// # What the caller must keep to
///
/// - `memory` has the bytes of the store's medium.
pub fn next_active<M: Medium>(
    slots: &Slots<M>,
    memory: &[u8],
    run: &[u8],
    sector: u32,
    last: Option<u32>,
) -> Due {
    debug_assert!(memory.len() as u64 == u64::from(slots.medium().len()));
    let at = slots.image_at() as usize;
    let end = at + slots.active_len() as usize;
    next(&memory[at..end], run, sector, last)
}
