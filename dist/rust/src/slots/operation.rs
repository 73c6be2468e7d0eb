// Of crates/dfu_slots/src/operation.rt, whose contracts are taken away.

//! One operation on a medium: an erase, or a write with the source of its bytes.

/// Source of the bytes that an operation writes. If the operation writes more bytes than the source has, the others are zeros.
#[derive(Clone, Copy, Debug, PartialEq, Eq)]
pub enum Source {
    /// The bytes held back, followed by the block or the image.
    Joined,
    /// The bytes held back.
    Held,
    /// The header that a `commit` or a `format` writes.
    Header,
    /// The first byte of an open gate.
    Opened,
    /// No bytes at all. The operation writes only zeros, and they close a gate.
    Closed,
}

/// An operation on a medium: an erase, or a write with the erases before it.
#[derive(Clone, Copy, Debug, PartialEq, Eq)]
pub enum Op {
    /// Erases the sector that begins at `at`.
    Erase {
        /// Offset of the sector on the medium, in bytes.
        at: u64,
    },
    /// Erases each sector that begins in the range, then writes the bytes. With a `len` of 0 it neither erases nor writes.
    Program {
        /// Offset of the first written byte on the medium.
        at: u64,
        source: Source,
        /// Number of bytes of the source to skip.
        skip: u32,
        /// Number of bytes to write.
        len: u32,
    },
}
