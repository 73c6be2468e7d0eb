// Of crates/dfuse_host/src/report.rt, whose contracts are taken away.

//! Reports with which a session ends.

use crate::wire::Code;

/// Knowledge about the device at the end of a session: it stayed in upgrade mode, it left this mode, or the session doesn't know. The leave
/// request is a DNLOAD without bytes.
#[derive(Clone, Copy, Debug, PartialEq, Eq)]
pub enum Leaving {
    /// The session didn't reach the leave request.
    Stayed,
    /// The device reported that it leaves.
    Left,
    /// The session reached the leave request, but doesn't know if the device leaves.
    Unknown,
}

/// Report with which a session ended.
#[derive(Clone, Copy, Debug, PartialEq, Eq)]
pub enum Report {
    /// The session read back each byte of the image and found it equal.
    Verified(Leaving),
    /// The device returned a byte that differs from the one of the image.
    Different,
    /// The device refused a command or failed while bytes were read back, and reported this code.
    Refused(Code),
    /// The device reported errVENDOR, which means that its memory is protected against reading.
    ReadProtected,
    /// No action was left before the whole image was compared.
    GaveUp,
    /// The device restarted more often than the limits allow.
    RestartsSpent,
    /// The device runs its application and isn't in upgrade mode.
    NotDfu,
}
