// Of crates/dfu_slots/src/noted.rt, whose contracts are taken away.

//! Record of the last writes of a simulated medium, for a trace.

use crate::slots::Failed;
use arrayvec::ArrayVec;

/// Outcome of a write or an erase.
#[derive(Clone, Copy, Debug, PartialEq, Eq)]
pub enum WriteEnd {
    Worked,
    Failed,
    /// The medium was armed to lie: it reported success, but may have left other bytes.
    Lied,
}

/// A write or an erase: its offset, its number of bytes, and its outcome.
#[derive(Clone, Copy, Debug, PartialEq, Eq)]
pub struct WriteNote {
    pub erases: bool,
    pub at: u32,
    pub len: u32,
    pub end: WriteEnd,
}

impl Default for WriteNote {
    fn default() -> WriteNote {
        WriteNote {
            erases: false,
            at: 0,
            len: 0,
            end: WriteEnd::Worked,
        }
    }
}

/// The last writes and erases of a medium, and the number of all of them.
#[derive(Debug, PartialEq, Eq)]
pub struct LastWrites {
    /// The last writes and erases, at most 16, the oldest first.
    pub notes: ArrayVec<WriteNote, 16>,
    /// Number of all writes and erases so far, limited to 2^64 - 1.
    pub count: u64,
}

impl LastWrites {
    /// Returns an empty list of writes.
    pub(crate) fn none() -> LastWrites {
        LastWrites {
            notes: ArrayVec::new(),
            count: 0,
        }
    }

    /// Appends `note`. If the list is full, the oldest note is removed first.
    pub(crate) fn add(&mut self, note: WriteNote) {
        if self.notes.is_full() {
            self.notes.remove(0);
        }
        self.notes.push(note);
        self.count = self.count.saturating_add(1);
    }
}

/// Returns the outcome of a write that returned `answer`. If `lies` is true, the medium was armed to lie in this write.
pub(crate) fn ended(lies: bool, answer: Result<(), Failed>) -> WriteEnd {
    match answer {
        Ok(()) if lies => WriteEnd::Lied,
        Ok(()) => WriteEnd::Worked,
        Err(Failed) => WriteEnd::Failed,
    }
}
