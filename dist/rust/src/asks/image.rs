// Of crates/dfu_asks/src/image.rt, whose contracts are taken away.

//! Location of the active image, which a program runs.

use crate::asks::gates::gate_room;
use crate::asks::{Asking, Noted, Sector};
use crate::slots::{Unit, length_in};

/// Location of an image in the flash.
#[derive(Clone, Copy, Debug, PartialEq, Eq)]
pub struct ImagePlace {
    /// Offset of the image's first byte in the flash.
    pub at: u32,
    /// Length of the image in bytes, 0 to 16,777,216.
    pub len: u32,
}

// Returns the offset of the first slot, or of the second if `second` is true, in flash of `size` bytes.
fn slot_at(second: bool, size: usize) -> usize {
    if second { size / 2 } else { 0 }
}

impl ImagePlace {
    /// Returns the location of the active image in `flash`, which is written in units of `unit` and erased in sectors of `sector`. The
    /// image lies after the gate and the header of its slot, within the flash. The call reads the image of each open slot, and needs no
    /// device.
    ///
    /// None exactly if the flash has no active image, or 2^32 bytes or more.
    pub fn find(flash: &[u8], unit: Unit, sector: Sector) -> Option<ImagePlace> {
        let noted = Noted::find(flash, unit, sector)?;
        let slot = slot_at(noted.second, flash.len());
        Some(ImagePlace {
            at: slot as u32 + 2 * gate_room(unit, sector),
            len: length_in(&noted.header),
        })
    }
}

impl Asking {
    /// Returns the location of the active image in `flash`, as `ImagePlace::find` does, regardless of the device's note.
    ///
    /// None exactly if the flash has no active image, or 2^32 bytes or more.
    pub fn image(&self, flash: &[u8]) -> Option<ImagePlace> {
        ImagePlace::find(flash, self.unit, self.sector)
    }
}
