//! Plain memory as flash.

use crate::dfu::flash::{Flash, ReadFlash, Unit};
use core::convert::Infallible;

/// Plain memory as flash, written over in place by single bytes: for tests, and for FRAM or MRAM that is mapped. New memory of this kind is
/// never known to be new, so that the first image is put there by [`Dfu::format`](crate::dfu::Dfu::format).
///
/// ```
/// use fustrelan::dfu::{Dfu, Memory};
///
/// // Two slots of a gate and a header, 16 bytes each, and 1,024 bytes for an image.
/// let mut flash = Memory([0; 2 * (2 * 16 + 1024)]);
/// type Device = Dfu<Memory<2112>, 64>;
/// assert_eq!(Device::image(&flash), None);
/// assert_eq!(Device::format(&mut flash, b"shipped"), Ok(()));
/// assert_eq!(Device::image(&flash), Some(&b"shipped"[..]));
/// ```
#[derive(Clone, Debug, PartialEq, Eq)]
pub struct Memory<const LEN: usize>(pub [u8; LEN]);

impl<const LEN: usize> ReadFlash for Memory<LEN> {
    type Error = Infallible;
    const UNIT: Unit = Unit::Bytes1;
    const SECTOR: u32 = 0;

    fn bytes(&self) -> &[u8] {
        &self.0
    }
}

impl<const LEN: usize> Flash for Memory<LEN> {
    // (Without sectors nothing is erased.)
    fn erase(&mut self, _: u32) -> Result<(), Infallible> {
        Ok(())
    }

    fn program(&mut self, at: u32, bytes: &[u8]) -> Result<(), Infallible> {
        self.0[at as usize..][..bytes.len()].copy_from_slice(bytes);
        Ok(())
    }
}
