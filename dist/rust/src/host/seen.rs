// Of crates/dfu_host/src/seen.rt, whose contracts are taken away.

//! Result of an action.

/// Result of an action. A result that can't follow from the action is treated as [`Seen::Nothing`].
#[derive(Clone, Copy, Debug, PartialEq, Eq)]
pub enum Seen<'s> {
    /// A request whose answer has no bytes was acknowledged.
    Ack,
    /// The device answered the request with these bytes, of any length.
    Bytes(&'s [u8]),
    /// A request was stalled.
    Stall,
    /// A request, or its answer, was lost.
    Nothing,
    /// The requested wait is over.
    Waited,
    /// The bus was reset.
    WasReset,
    /// The device restarted, or another program reset it. The caller passes this before any later answer.
    Restarted,
    /// The device left the bus or returned reset by itself, after the close. It had acknowledged the DNLOAD that closes the download and
    /// then answered a GETSTATUS with dfuMANIFEST-SYNC or dfuMANIFEST, and no host reset it or sent it a request to leave. The caller
    /// passes this once, before any later answer.
    Left,
}
