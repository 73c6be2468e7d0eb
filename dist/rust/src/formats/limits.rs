// Of crates/dfu_formats/src/images/limits.rt, whose contracts are taken away.

//! Limits of an image and of a record.

/// Largest number of bytes of an image.
pub(crate) const MAX_IMAGE: usize = 16_777_216;

/// Largest number of elements of an image.
pub(crate) const MAX_ELEMENTS: usize = 1024;

/// Largest number of bytes of a record.
pub(crate) const MAX_RECORD: usize = 260;
