// Of crates/dfu_host/src/room.rt, whose contracts are taken away.

//! An upload whose caller keeps the bytes in a room of fixed size.

use crate::host::part::UploadPart;
use crate::host::seen::Seen;
use crate::host::session::Session;

impl Session<'_> {
    /// Passes the result of the session's action to the session, as `Host::take` does. Before the call, the first `kept` bytes of
    /// the caller's room are kept. The call returns the number of bytes that are kept after it. A download keeps no bytes and needs no
    /// room.
    ///
    /// A part of an upload is stored in the room after the kept bytes. If the part doesn't fit, nothing is stored, and the session ends
    /// with the report NoMemory.
    ///
    /// # What the caller must keep to
    ///
    /// - `kept` is at most the length of `room`.
    pub fn take(&mut self, room: &mut [u8], kept: usize, seen: Seen<'_>) -> usize {
        debug_assert!(kept <= room.len());
        match keep(self, room, kept, seen) {
            Some(kept) => {
                self.on_result(seen, false);
                kept
            }
            None => {
                self.on_result(seen, true);
                kept
            }
        }
    }
}

/// Stores the part in a session's result, if there is one to keep, and returns the number of bytes that are kept then. None if the room is
/// too small for the part; nothing changes then.
fn keep(session: &Session<'_>, room: &mut [u8], kept: usize, seen: Seen<'_>) -> Option<usize> {
    match session.part(seen) {
        Some(part) => store(room, kept, &part),
        None => Some(kept),
    }
}

/// Stores a part after the first `kept` bytes, or at the beginning if it is part 0, and returns the number of bytes that are kept then.
/// None if the room is too small for the part; nothing changes then.
fn store(room: &mut [u8], kept: usize, part: &UploadPart<'_>) -> Option<usize> {
    let from = if part.number == 0 { 0 } else { kept };
    if room.len() - from < part.bytes.len() {
        return None;
    }
    let to = from + part.bytes.len();
    room[from..to].copy_from_slice(part.bytes);
    Some(to)
}
