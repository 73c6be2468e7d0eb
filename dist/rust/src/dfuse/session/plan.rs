// Of crates/dfuse_host/src/plan.rt, whose contracts are taken away.

//! Plan of a session: an image and the memory that receives it.

use crate::dfuse::session::image::{element_at, end_of, image_start};
use crate::dfuse::file::Element;
use crate::dfuse::memory::{Map, Page};

/// Plan of a session: the image to write, the memory that receives it, and options.
#[derive(Clone, Copy, Debug, PartialEq, Eq)]
pub struct Plan<'f> {
    /// Map of the memory.
    pub map: &'f Map<'f>,
    /// Image to write.
    pub image: &'f [Element<'f>],
    /// Largest number of bytes in a block, 1 to 65,535. A session refuses a plan with 0.
    pub transfer: u16,
    /// Number of bytes at the beginning of the image that are written last. The front never extends beyond the first element and its first
    /// page.
    pub front: u16,
    /// True if the device must start its application after the whole image was compared.
    pub leaves: bool,
    /// Address at which the device must start its application.
    pub start: u32,
}

impl Plan<'_> {
    /// Returns the page of the map that contains address `at`, or None if no page does.
    fn page_of(&self, at: u64) -> Option<Page> {
        if at >= 0x1_0000_0000 {
            return None;
        }
        self.map.page_at(at as u32)
    }

    /// Returns the address at which the page that contains `at` begins, or `at` if no page contains it.
    pub(crate) fn page_start(&self, at: u64) -> u64 {
        match self.page_of(at) {
            None => at,
            Some(page) => page.start as u64,
        }
    }

    /// Returns the address after the page that contains `at`, or `at` if no page contains it.
    pub(crate) fn page_end(&self, at: u64) -> u64 {
        match self.page_of(at) {
            None => at,
            Some(page) => page.start as u64 + page.size,
        }
    }

    /// Returns the address after the element that contains `at`, or `at` if no element contains it.
    fn element_end(&self, at: u64) -> u64 {
        match element_at(at, self.image) {
            None => at,
            Some(element) => end_of(&element),
        }
    }

    /// Returns the address after the front, which lies within the first element and its first page.
    pub(crate) fn front_end(&self) -> u64 {
        let at = image_start(self.image);
        (at + self.front as u64).min(self.element_end(at).min(self.page_end(at)))
    }

    /// Returns the largest number of bytes in a block; 1 if the plan's transfer size is 0.
    pub(crate) fn block_size(&self) -> u64 {
        (self.transfer as u64).max(1)
    }

    /// Returns the address after the bytes that one DNLOAD writes from `at` on. It doesn't go beyond one block, one element, one page or
    /// `end`.
    pub(crate) fn write_end(&self, at: u64, end: u64) -> u64 {
        at.saturating_add(self.block_size())
            .min(self.element_end(at).min(self.page_end(at)).min(end))
    }

    /// Returns the address after the bytes that one UPLOAD reads from `at` on. It doesn't go beyond one block, one element or `end`.
    pub(crate) fn read_end(&self, at: u64, end: u64) -> u64 {
        at.saturating_add(self.block_size())
            .min(self.element_end(at).min(end))
    }
}
