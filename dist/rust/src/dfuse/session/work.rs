// Of crates/dfuse_host/src/work.rt, whose contracts are taken away.

//! The work of a session: erasing, writing, comparing and leaving.

/// Work of a session. The variants are in the order of a session, except `EraseAgain`. The front is the beginning of the image, which the
/// session writes last.
#[derive(Clone, Copy, Debug, PartialEq, Eq)]
pub enum Work {
    /// Erase each page that contains a byte of the image, from this address on.
    Erase { at: u64 },
    /// Erase the page in which a write may have stopped halfway, and write the image after the front again from there up to `end`.
    EraseAgain { page: u64, end: u64 },
    /// Write the image from `at` up to `end`.
    Write { at: u64, end: u64 },
    /// Compare the bytes in the device with the image after the front, from this address on.
    Compare { at: u64 },
    /// Write the front, from this address on.
    WriteFront { at: u64 },
    /// Compare the bytes in the device with the front, from this address on.
    CompareFront { at: u64 },
    /// End the reading after the whole image was compared, and send the leave request if the plan lets the device leave.
    Leave,
}
