// Of crates/dfu_boot/src/install/due.rt, whose contracts are taken away.

//! Next operation of a run area, and refusals.

/// Reasons for which `next` refuses an image or a run area.
#[derive(Clone, Copy, Debug, PartialEq, Eq)]
pub enum InstallRefusal {
    /// The sector size is not a multiple of 256 up to 262,144, or the run area is not a whole number of sectors, or has 2^32 bytes or more.
    WrongSize,
    /// The image has no bytes.
    NoImage,
    /// The image has more bytes than the run area.
    TooLarge,
}

/// Next operation of a run area, which the caller must carry out.
#[derive(Clone, Copy, Debug, PartialEq, Eq)]
pub enum Due {
    /// No operation: the image can't be started, for this reason.
    Refuse(InstallRefusal),
    /// An erase of the sector that begins at this offset of the run area.
    Erase(u32),
    /// A program of the 256 bytes that `piece` returns, at this offset of the run area.
    Program(u32),
    /// No operation: the run area holds the whole image, which may be started.
    Start,
}
