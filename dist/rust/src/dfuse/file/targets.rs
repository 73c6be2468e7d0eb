// Of crates/dfu_formats/src/dfuse/targets.rt, whose contracts are taken away.

//! The targets of a file.

use crate::dfuse::file::elements::{Elements, check_elements, check_end};
use crate::dfuse::file::fault::FileFault;
use crate::dfuse::file::headings::take_heading;

/// A target: the elements for the memory of one alternate setting.
#[derive(Debug, PartialEq, Eq)]
pub struct Target<'f> {
    /// The alternate setting, 0 to 255.
    pub setting: u8,
    /// 0 if the target has no name, and any other number if it has one.
    pub named: u32,
    /// The 255 bytes of the name field. The name ends before the first 0.
    pub name: &'f [u8],
    /// The elements of the target, in the order of the file.
    pub elements: Elements<'f>,
}

/// Checks that `bytes` are the encoding of `count` targets, each with the number of elements in its header, and nothing more.
pub(crate) fn check_targets(count: u8, bytes: &[u8]) -> Result<(), FileFault> {
    let mut rest = bytes;
    for _ in 0..count {
        match take_heading(rest) {
            Err(fault) => return Err(fault),
            Ok(heading) => match check_elements(heading.count, heading.content) {
                Err(fault) => return Err(fault),
                Ok(()) => rest = heading.rest,
            },
        }
    }
    check_end(rest, FileFault::Trailing)
}

/// Iterator over the targets of a file, in its order.
#[derive(Debug, PartialEq, Eq)]
pub struct Targets<'f> {
    left: u8,
    rest: &'f [u8],
}

impl<'f> Targets<'f> {
    /// Returns an iterator over the next `left` targets of `rest`, which `check_targets` must have accepted.
    pub(crate) fn new(left: u8, rest: &'f [u8]) -> Targets<'f> {
        Targets { left, rest }
    }

    /// Returns the number of targets that are left.
    pub fn len(&self) -> u8 {
        self.left
    }

    /// Removes and returns the first target. Returns None if no target is left.
    #[inline(always)]
    pub fn next_target(&mut self) -> Option<Target<'f>> {
        if self.left == 0 {
            return None;
        }
        match take_heading(self.rest) {
            Err(_) => None,
            Ok(heading) => {
                self.left -= 1;
                self.rest = heading.rest;
                Some(Target {
                    setting: heading.setting,
                    named: heading.named,
                    name: heading.name,
                    elements: Elements::new(heading.count, heading.content),
                })
            }
        }
    }
}
