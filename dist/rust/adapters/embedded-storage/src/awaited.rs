//! NOR flash of embedded-storage-async 0.4.

use crate::{sector_of, unit_of};
use embedded_storage_async::nor_flash::NorFlash;
use fustrelan::dfu::{AsyncFlash, ReadFlash, Unit};

/// NOR flash that is awaited, and read where it is mapped.
pub trait AsyncMapped: NorFlash {
    /// Both slots, as they read now: `capacity` bytes.
    fn bytes(&self) -> &[u8];
}

/// NOR flash that is awaited, as a device takes it. Its unit and its sector are those of [`Nor`](crate::Nor).
pub struct AsyncNor<F>(pub F);

impl<F: AsyncMapped> ReadFlash for AsyncNor<F> {
    type Error = F::Error;
    const UNIT: Unit = unit_of(F::WRITE_SIZE);
    const SECTOR: u32 = sector_of(F::ERASE_SIZE);

    fn bytes(&self) -> &[u8] {
        self.0.bytes()
    }
}

impl<F: AsyncMapped> AsyncFlash for AsyncNor<F> {
    async fn erase(&mut self, at: u32) -> Result<(), F::Error> {
        self.0.erase(at, at + Self::SECTOR).await
    }

    async fn program(&mut self, at: u32, bytes: &[u8]) -> Result<(), F::Error> {
        self.0.write(at, bytes).await
    }
}
