// Of crates/dfu_slots/src/medium.rt, whose contracts are taken away.

//! A medium that stores bytes and whose writes may fail.

use crate::slots::Unit;
use thiserror::Error;

/// A write or an erase failed: its range may hold any bytes now, and all other bytes are unchanged.
#[derive(Clone, Copy, Debug, PartialEq, Eq, Error)]
#[error("a write to the medium failed")]
pub struct Failed;

/// Memory that is read byte by byte and written in units of 1, 16, 64 or 256 bytes. FRAM, MRAM and EEPROM are overwritten in place; a unit
/// of NOR flash is written only once after each erase.
///
/// A write must leave every byte outside its range unchanged, even if it is torn, and an erase must leave every byte outside its sector
/// unchanged. If `write` erases by itself, `unit` must therefore be a multiple of the part's erase unit. A part with larger sectors returns
/// their size from `sector`. The store then erases each sector before it writes there, and writes no unit twice between two erases.
pub trait Medium {
    /// Returns the number of bytes of the medium. It never changes.
    fn len(&self) -> u32;

    /// Returns the unit in which the medium is written. It never changes.
    fn unit(&self) -> Unit;

    /// Returns the number of bytes of a sector, which is erased as a whole; 0 if the medium is overwritten in place and never erased. The
    /// number never changes. The store supports 0 and the multiples of 256 up to 262,144. All sectors have this size; a part with unequal
    /// sectors must expose a run of equal ones.
    fn sector(&self) -> u32;

    /// Returns true if the store must compute the CRC register of an image with a table of 64 bytes instead of the tables of 8,192 bytes.
    /// The register is the same, but its computation takes over four times as many instructions. If every medium of a program returns the
    /// constant `true`, the large tables are not linked.
    fn has_small_tables(&self) -> bool {
        false
    }

    /// Reads `out.len()` bytes, the first one at offset `at`. The range must lie within the medium.
    ///
    /// # What the caller must keep to
    ///
    /// - The range lies within the length.
    fn read(&self, at: u32, out: &mut [u8]);

    /// Writes `bytes` over the range that begins at offset `at`. On a medium with sectors every byte of the range is FFh, and none was
    /// written since its sector was erased. The range must lie within the medium, and `at` and the number of bytes must be multiples of the
    /// unit's size.
    ///
    /// After Ok the range holds exactly `bytes`, unless the part lied: then the range may hold any bytes, and the count of failures rose.
    /// After `Failed` the range may hold any bytes, and the count rose. The count stays at its maximum, 2^64 - 1, and a medium may always
    /// report this maximum. All other bytes are unchanged, even if the power fails during the write.
    ///
    /// # What the caller must keep to
    ///
    /// - The range lies within the length.
    /// - `at` is a multiple of the unit's size.
    /// - The number of bytes is a multiple of the unit's size.
    /// - On a medium with sectors all bytes of the range are FFh, and none was written since its sector was erased.
    fn write(&mut self, at: u32, bytes: &[u8]) -> Result<(), Failed>;

    /// Erases the sector that begins at offset `at`: fills it with FFh. An erase may fail or lie as a write may. The sector must lie within
    /// the medium. Without sectors the erase changes no byte.
    ///
    /// # What the caller must keep to
    ///
    /// - The sector lies within the length.
    /// - `at` is where a sector begins, or 0 if there are none.
    fn erase(&mut self, at: u32) -> Result<(), Failed>;
}

/// A medium that can be armed to fail or lie at a chosen write, and to leave chosen bytes there.
pub trait Faulty: Medium {
    /// Arms the medium: the next `writes` writes work, and the one after them fails. The failed write stores the first bytes of `tear`, as
    /// many as fit into its range, and leaves the old bytes after them. Only the first 4,096 bytes of `tear` are kept.
    ///
    /// With `stop` all later writes fail too and change no byte, until `disarm`; without `stop` they work. The call replaces an earlier
    /// `arm` or `arm_lie`, and changes no byte.
    fn arm(&mut self, writes: u32, tear: &[u8], stop: bool);

    /// Arms the medium: the next `writes` writes work, and the one after them lies. It returns Ok, but stores only the first bytes of
    /// `tear`, as many as fit into its range, and leaves the old bytes after them. Only the first 4,096 bytes of `tear` are kept. Later
    /// writes work.
    ///
    /// The call replaces an earlier `arm` or `arm_lie`, and changes no byte.
    fn arm_lie(&mut self, writes: u32, tear: &[u8]);

    /// Clears the fuse: no later write fails or lies. Changes no byte.
    fn disarm(&mut self);
}
