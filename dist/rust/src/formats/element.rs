// Of crates/dfu_formats/src/images/element.rt, whose contracts are taken away.

//! Elements of an image.

use crate::memory::Vec;

/// Consecutive bytes, and the address of the first one. There is at least one byte, and the last one has a 32-bit address.
#[derive(Debug, PartialEq, Eq)]
pub struct Element {
    address: u32,
    bytes: Vec<u8>,
}

impl Element {
    /// Returns the element of `bytes` at `address`. There must be at least one byte, and the element must end at or before 2^32.
    pub(crate) fn new(address: u64, bytes: Vec<u8>) -> Element {
        Element {
            address: address as u32,
            bytes,
        }
    }

    /// Returns the address of the first byte.
    pub fn address(&self) -> u32 {
        self.address
    }

    /// Returns the bytes of the element.
    pub fn bytes(&self) -> &[u8] {
        &self.bytes
    }

    /// Returns the address after the last byte, at most 2^32.
    pub fn end(&self) -> u64 {
        self.address as u64 + self.bytes.len() as u64
    }
}
