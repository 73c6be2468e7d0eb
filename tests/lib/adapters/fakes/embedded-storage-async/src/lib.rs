//! The traits of embedded-storage-async 0.4 for NOR flash, from memory.
#![no_std]

pub mod nor_flash {
    #![allow(async_fn_in_trait)]
    pub use embedded_storage::nor_flash::{ErrorType, NorFlashError, NorFlashErrorKind};

    pub trait ReadNorFlash: ErrorType {
        const READ_SIZE: usize;
        async fn read(&mut self, offset: u32, bytes: &mut [u8]) -> Result<(), Self::Error>;
        fn capacity(&self) -> usize;
    }

    pub trait NorFlash: ReadNorFlash {
        const WRITE_SIZE: usize;
        const ERASE_SIZE: usize;
        async fn erase(&mut self, from: u32, to: u32) -> Result<(), Self::Error>;
        async fn write(&mut self, offset: u32, bytes: &[u8]) -> Result<(), Self::Error>;
    }
}
