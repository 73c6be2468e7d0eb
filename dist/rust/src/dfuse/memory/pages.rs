// Of crates/dfu_formats/src/memory/pages.rt, whose contracts are taken away.

//! Pages and ranges of pages.

/// Access to a page: any combination of read, erase and write.
#[derive(Clone, Copy, Debug, Default, PartialEq, Eq)]
pub struct Access {
    pub is_readable: bool,
    pub is_erasable: bool,
    pub is_writable: bool,
}

impl Access {
    /// Returns true if the access includes all of `wanted`.
    pub fn grants(self, wanted: Access) -> bool {
        (self.is_readable || !wanted.is_readable)
            && (self.is_erasable || !wanted.is_erasable)
            && (self.is_writable || !wanted.is_writable)
    }
}

/// Consecutive pages of the same size and access.
#[derive(Clone, Copy, Debug, Default, PartialEq, Eq)]
pub struct Pages {
    /// Address of the first byte.
    pub start: u32,
    /// Number of bytes in each page, at most 2^32.
    pub size: u64,
    /// Number of pages.
    pub count: u32,
    /// Access to each page.
    pub access: Access,
}

/// A page: its address, its size, and the access to it.
#[derive(Clone, Copy, Debug, PartialEq, Eq)]
pub struct Page {
    /// Address of the first byte.
    pub start: u32,
    /// Number of bytes in the page, at most 2^32.
    pub size: u64,
    /// Access to the page.
    pub access: Access,
}
