// Of crates/dfu_host/src/action.rt, whose contracts are taken away.

//! Actions that a host requests from its caller.

use crate::host::report::Report;

/// Action that a host requests from its caller.
#[derive(Clone, Copy, Debug, PartialEq, Eq)]
pub enum Action<'f> {
    /// Send this request (USB DFU 1.1, section 3) with `body`: a block of the payload for a DNLOAD, else empty. If the first byte of
    /// `setup` is A1h, the device answers with bytes.
    Send { setup: [u8; 8], body: &'f [u8] },
    /// Wait for this many milliseconds, 0 to 16,777,215.
    Wait(u32),
    /// Reset the bus.
    Reset,
    /// Do nothing: the session is over with this report.
    Done(Report),
}
