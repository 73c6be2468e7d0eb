// Of crates/dfu_formats/src/dfuse/file.rt, whose contracts are taken away.

//! A DfuSe file.

use crate::dfuse::file::fault::FileFault;
use crate::dfuse::file::marks::begins_with_dfuse;
use crate::dfuse::file::numbers::number_at;
use crate::dfuse::file::suffix::read_suffix;
use crate::dfuse::file::targets::{Targets, check_targets};
use crate::wire::Ids;

/// A DfuSe file: the identifiers of its device, and one to 255 targets, as slices of the bytes that were read. Only `read` creates one.
#[derive(Debug, PartialEq, Eq)]
pub struct File<'f> {
    ids: Ids,
    count: u8,
    targets: &'f [u8],
}

/// Reads `bytes`, the part of a file before its suffix. The file has `whole` bytes, and its suffix contains `ids`.
///
/// # Errors
///
/// The first fault that is found in `bytes`, from the front.
fn read_body(ids: Ids, whole: usize, bytes: &[u8]) -> Result<File<'_>, FileFault> {
    if bytes.len() < 11 {
        return Err(FileFault::NoPrefix);
    }
    if !begins_with_dfuse(bytes) {
        return Err(FileFault::NoPrefix);
    }
    if bytes[5] != 1 {
        return Err(FileFault::BadVersion);
    }
    let size = number_at(6, bytes) as usize;
    if size != bytes.len() && size != whole {
        return Err(FileFault::BadImageSize);
    }
    let count = bytes[10];
    if count == 0 {
        return Err(FileFault::NoTargets);
    }
    let (_, targets) = bytes.split_at(11);
    match check_targets(count, targets) {
        Ok(()) => Ok(File {
            ids,
            count,
            targets,
        }),
        Err(fault) => Err(fault),
    }
}

/// Reads the suffix of `bytes`, and then the bytes before it.
///
/// # Errors
///
/// The first fault of the suffix, or else the first fault of the bytes before the suffix.
fn read_file(bytes: &[u8]) -> Result<File<'_>, FileFault> {
    match read_suffix(bytes) {
        Ok(suffixed) => read_body(suffixed.ids, bytes.len(), suffixed.payload),
        Err(fault) => Err(fault),
    }
}

/// Reads a DfuSe file. The size in its prefix may include the suffix, as dfu-util's tools write it, or not, as ST's tools do. If the dwCRC
/// is wrong, no fault in the bytes before the suffix is reported.
///
/// # Errors
///
/// The first fault that is found, in the order that [`FileFault`] describes.
pub fn read(bytes: &[u8]) -> Result<File<'_>, FileFault> {
    read_file(bytes)
}

impl<'f> File<'f> {
    /// Returns the identifiers of the device that the file is for.
    pub fn ids(&self) -> Ids {
        self.ids
    }

    /// Returns the targets, in the order of the file.
    pub fn targets(&self) -> Targets<'f> {
        Targets::new(self.count, self.targets)
    }

    /// Returns the alternate setting of all targets, or None if they have different ones.
    pub fn setting(&self) -> Option<u8> {
        let mut targets = self.targets();
        let first = match targets.next_target() {
            Some(target) => target.setting,
            None => return None,
        };
        while let Some(target) = targets.next_target() {
            if target.setting != first {
                return None;
            }
        }
        Some(first)
    }
}
