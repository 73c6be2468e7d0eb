// Of crates/dfu_home/src/due.rt, whose contracts are taken away.

//! Operation that is due next, and progress of a copy.

/// Reasons that prevent an image from being copied into the first slot. They are checked in this order.
#[derive(Clone, Copy, Debug, PartialEq, Eq)]
pub enum CopyRefusal {
    /// The medium has no sectors.
    NoSectors,
    /// The medium has no active image.
    NoImage,
    /// One operation for each 128 bytes of the medium was done, and the image is not in the first slot: the flash is worn, or its driver is
    /// broken.
    NotWritten,
}

/// Operation that is due next. Offsets are counted from the beginning of the medium.
#[derive(Clone, Copy, Debug, PartialEq, Eq)]
pub enum Due {
    /// No operation, because no image can be copied into the first slot.
    Refuse(CopyRefusal),
    /// No operation, because the active image is in the first slot.
    Home,
    /// An erase of the sector that begins at `at`.
    Erase {
        /// Offset of the sector.
        at: u32,
    },
    /// A program of `len` bytes at `at`. `next` writes the bytes to the front of its buffer.
    Program {
        /// Offset of the first byte.
        at: u32,
        /// Number of bytes, 16 to 256, in whole units.
        len: u32,
    },
}

/// Progress between two operations. A loss of power discards it.
#[derive(Clone, Copy, Debug, PartialEq, Eq)]
pub struct Progress {
    /// Offset of the last operation if it succeeded. None if it didn't, or if there was no operation yet.
    pub last: Option<u32>,
    /// Number of operations since the last power-on.
    pub count: u32,
}
