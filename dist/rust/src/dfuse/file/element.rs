// Of crates/dfu_formats/src/dfuse/element.rt, whose contracts are taken away.

//! Elements of an image.

/// Bytes, and the address at which a session stores the first byte. A C program passes its image as a list of elements.
#[derive(Clone, Copy, Debug, PartialEq, Eq)]
#[repr(C)]
pub struct Element<'f> {
    pub address: u32,
    pub bytes: &'f [u8],
}
