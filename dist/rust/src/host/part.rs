// Of crates/dfu_host/src/part.rt, whose contracts are taken away.

//! A part of an upload that is to be kept.

/// A part of an upload that must be kept. Its bytes are appended to those kept since the fetching began.
#[derive(Clone, Copy, Debug, PartialEq, Eq)]
pub(crate) struct UploadPart<'s> {
    /// Number of the part. Part 0 is the first, so that nothing is kept before it.
    pub(crate) number: u16,
    pub(crate) bytes: &'s [u8],
}
