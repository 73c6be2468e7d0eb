// Of crates/dfuse_host/src/limits.rt, whose contracts are taken away.

//! Limits on the actions and restarts of a session.

/// Limits on the actions of a session and on the restarts of its device.
#[derive(Clone, Copy, Debug, PartialEq, Eq)]
pub struct Limits {
    /// Number of calls of `take` after which the session is over; 0 counts as 1.
    pub actions: u32,
    /// Number of restarts of the device that are allowed; one more restart ends the session.
    pub restarts: u16,
}
