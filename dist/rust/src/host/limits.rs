// Of crates/dfu_host/src/limits.rt, whose contracts are taken away.

//! Limits of a session.

/// Limits that end a session early.
#[derive(Clone, Copy, Debug, PartialEq, Eq)]
pub struct Limits {
    /// Number of calls of `take` after which the host gives up; 0 counts as 1.
    pub actions: u32,
    /// Number of restarts of the device that the host tolerates; one more restart ends the session.
    pub restarts: u16,
}
