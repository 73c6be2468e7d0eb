// Of crates/dfu_host/src/goal.rt, whose contracts are taken away.

//! Goals of a session.

/// Goal of a session. A goal takes no memory, because the caller keeps the bytes that an upload fetches.
#[derive(Clone, Copy, Debug, PartialEq, Eq)]
pub enum Goal<'f> {
    /// Install a payload, which has at least one byte.
    Load(&'f [u8]),
    /// Fetch the active image.
    Fetch,
    /// Install a payload, which has at least one byte, and compare the active image with it after the last reset.
    Verify(&'f [u8]),
    /// Compare the active image with the payload, which has at least one byte.
    Compare(&'f [u8]),
}

impl<'f> Goal<'f> {
    /// Returns the payload that is sent or compared; empty for an upload.
    pub(crate) fn payload(&self) -> &'f [u8] {
        match self {
            Goal::Load(payload) | Goal::Verify(payload) | Goal::Compare(payload) => payload,
            Goal::Fetch => &[],
        }
    }

    /// Returns true if a payload still has to be installed.
    pub(crate) fn installs(&self) -> bool {
        match self {
            Goal::Load(_) | Goal::Verify(_) => true,
            Goal::Fetch | Goal::Compare(_) => false,
        }
    }

    /// Returns true if the goal is to fetch the image.
    pub(crate) fn is_fetch(&self) -> bool {
        match self {
            Goal::Fetch => true,
            Goal::Load(_) | Goal::Verify(_) | Goal::Compare(_) => false,
        }
    }
}
