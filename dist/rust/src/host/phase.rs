// Of crates/dfu_host/src/phase.rt, whose contracts are taken away.

//! The phases of a session.

use crate::host::report::Report;

/// A phase of a session, with the values that the session must remember in it. Blocks are counted from 0; poll times are in milliseconds.
#[derive(Clone, Copy, Debug, PartialEq, Eq)]
pub enum Phase {
    /// Request the status, to find the device's state.
    Find,
    /// Like `Find`, after a stall.
    FindAgain,
    /// Send DETACH, so that the application leaves for DFU mode.
    Detach,
    /// Bring the device from its application into DFU mode.
    Enter,
    /// Send CLRSTATUS to clear the fault of an earlier session.
    Clear,
    /// Send ABORT to end the transfer of an earlier session.
    Quit,
    /// Wait for a write or an install that an earlier session left running, then request the status as in `Find`.
    WaitFind(u32),
    /// Reset the bus, then request the status as in `Find`.
    ResetFind,
    /// Send the block with this number.
    Block(usize),
    /// The answer to the block was lost. Request the state, which shows if the block arrived.
    Ask(usize),
    /// The block arrived. Request the status, which shows if the device has written it.
    Poll(usize),
    /// The block isn't written yet. Wait, then poll again.
    WaitPoll(usize, u32),
    /// All blocks are written. Close the download with a DNLOAD of 0 bytes.
    Close,
    /// The answer to the closing request was lost. Request the state, which shows if the request arrived.
    AskLast,
    /// Request the status, which shows if the new image is installed.
    Manifest,
    /// The image isn't installed yet. Wait, then request the status again.
    WaitManifest(u32),
    /// The device can't confirm the image. Wait, then reset for the last time and end as Unconfirmed.
    WaitLast(u32),
    /// A request was stalled, or the state is unexpected. Request the status.
    Trouble,
    /// Request the part of the image with this number, 0 to 65,534.
    Fetch(u16),
    /// Request the part of the image with this number, 0 to 65,534, and compare it.
    Compare(u16),
    /// Reset for the last time, and then end with this report, or compare if the session verifies.
    Last(Report),
    /// Reset for the last time, and then end as Uploaded, with all fetched bytes kept.
    LastUploaded,
    /// The caller aborted the session. Send ABORT, and end.
    GiveUp,
    /// The session is over with this report.
    Over(Report),
    /// The session is over as Uploaded, with all fetched bytes kept.
    OverUploaded,
}
