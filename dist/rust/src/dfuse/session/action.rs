// Of crates/dfuse_host/src/action.rt, whose contracts are taken away.

//! Actions of a session, which its caller must do.

use crate::dfuse::session::report::Report;

/// Action that the caller of a session must do next.
#[derive(Clone, Copy, Debug, PartialEq, Eq)]
pub enum Action<'f> {
    /// Send a request with this body, which holds bytes of the image for a DNLOAD that writes and is empty otherwise. If the first byte of
    /// the setup is A1h, the device answers with bytes.
    Send { setup: [u8; 8], body: &'f [u8] },
    /// Send this DNLOAD of block 0. Its body is a DfuSe command.
    Command { setup: [u8; 8], body: [u8; 5] },
    /// Wait for this number of milliseconds, 0 to 16,777,215.
    Wait(u32),
    /// Do nothing, because the session is over with this report.
    Done(Report),
}
