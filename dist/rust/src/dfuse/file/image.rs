// Of crates/dfu_formats/src/dfuse/image.rt, whose contracts are taken away.

//! The elements of a file for one alternate setting.

use crate::dfuse::file::element::Element;
use crate::dfuse::file::file::File;
use crate::dfuse::file::listing::put;
use core::fmt;
use thiserror::Error;

/// Fault of a request for the elements of an alternate setting: the first one in this order that applies.
#[derive(Clone, Copy, Debug, PartialEq, Eq, Error)]
pub enum ImageFault {
    /// No target is for this alternate setting.
    NoSuchSetting,
    /// There are more elements than slots in `room`.
    TooManyElements,
}

/// Text of each fault, in the order of the enum.
static TEXTS: [&str; 2] = [
    "the file has nothing for this alternate setting",
    "the file has too many elements",
];

impl fmt::Display for ImageFault {
    fn fmt(&self, f: &mut fmt::Formatter<'_>) -> fmt::Result {
        f.write_str(TEXTS[*self as usize])
    }
}

/// Sorts `elements` by their addresses.
fn sort_all(elements: &mut [Element<'_>]) {
    elements.sort_unstable_by_key(|element| element.address);
}

/// Sorts the first `count` elements of `room` by their addresses.
fn sort(count: usize, room: &mut [Element<'_>]) {
    sort_all(&mut room[..count]);
}

impl<'f> File<'f> {
    /// Writes the elements of all targets for an alternate setting to the front of `room`, in the order of the file. Returns their number.
    /// A session needs them sorted by address, as `image` writes them.
    ///
    /// # Errors
    ///
    /// NoSuchSetting, or TooManyElements if `room` has fewer slots than there are elements. After TooManyElements, `room` may have changed.
    pub fn listed(&self, setting: u8, room: &mut [Element<'f>]) -> Result<usize, ImageFault> {
        let mut count: usize = 0;
        let mut has_target = false;
        let mut targets = self.targets();
        while let Some(target) = targets.next_target() {
            if target.setting == setting {
                has_target = true;
                match put(target.elements, count, room) {
                    Some(n) => count = n,
                    None => return Err(ImageFault::TooManyElements),
                }
            }
        }
        if !has_target {
            return Err(ImageFault::NoSuchSetting);
        }
        Ok(count)
    }

    /// Writes the elements of alternate setting `setting` to the front of `room`, sorted by address. Returns their number. Overlapping
    /// elements are listed too, because the session refuses them.
    ///
    /// # Errors
    ///
    /// NoSuchSetting, or TooManyElements if `room` has fewer slots than there are elements.
    pub fn image(&self, setting: u8, room: &mut [Element<'f>]) -> Result<usize, ImageFault> {
        let count = match self.listed(setting, room) {
            Ok(count) => count,
            Err(fault) => return Err(fault),
        };
        sort(count, room);
        Ok(count)
    }
}
