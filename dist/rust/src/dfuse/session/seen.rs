// Of crates/dfuse_host/src/seen.rt, whose contracts are taken away.

//! Results that the caller gives to a session.

/// Result of an action, as the caller reports it. A result that doesn't fit the action counts as [`Seen::Nothing`].
#[derive(Clone, Copy, Debug, PartialEq, Eq)]
pub enum Seen<'s> {
    /// The device acknowledged a request that has no answer.
    Ack,
    /// The device answered a request with these bytes, of any length.
    Bytes(&'s [u8]),
    /// The device stalled a request.
    Stall,
    /// A request or its answer was lost.
    Nothing,
    /// The requested wait is over.
    Waited,
    /// The device restarted. The caller must report this before any later answer.
    Restarted,
}
