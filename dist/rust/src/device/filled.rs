// Of crates/dfu_device/src/filled.rt, whose contracts are taken away.

//! Checks that a mode agrees with the bytes that were put into a slot store.

use crate::device::device_state::DeviceState;

/// Facts about a slot store that determine which modes agree with it.
#[derive(Clone, Copy, Debug, PartialEq, Eq)]
pub struct PutSoFar {
    /// Largest length of an image, in bytes.
    pub room: u32,
    /// True if the gate of the spare slot is closed.
    pub begun: bool,
    /// Number of bytes put into the spare slot.
    pub end: u32,
}

// Returns true if the spare slot is closed and exactly `written` bytes were put into it.
fn is_put(seen: PutSoFar, written: u32) -> bool {
    seen.begun && seen.end == written
}

// Returns true if the spare slot is closed, exactly `written` bytes were put into it, and `written` is from 1 to `seen.room`.
fn is_written(seen: PutSoFar, written: u32) -> bool {
    0 < written && written <= seen.room && is_put(seen, written)
}

// Returns true if a block of `block` bytes is not empty and fits after the `written` bytes, and these bytes, if any, were put.
fn is_next(seen: PutSoFar, written: u32, block: usize) -> bool {
    0 < block
        && u64::from(written) + block as u64 <= u64::from(seen.room)
        && (written == 0 || is_put(seen, written))
}

/// Returns true if `mode`, with an unwritten block of `block` bytes, agrees with the bytes that were put into the slot store.
///
/// # What the caller must keep to
///
/// - `block` is below 2^32.
pub fn is_filled(seen: PutSoFar, mode: DeviceState, block: usize) -> bool {
    debug_assert!(block as u64 <= u64::from(u32::MAX));
    match mode {
        DeviceState::DownloadSync { written, .. } | DeviceState::DownloadBusy { written, .. } => {
            is_next(seen, written, block)
        }
        DeviceState::DownloadSyncWritten { written, .. }
        | DeviceState::DownloadIdle { written, .. }
        | DeviceState::ManifestSync { written }
        | DeviceState::Manifest { written, .. } => is_written(seen, written),
        _ => true,
    }
}
