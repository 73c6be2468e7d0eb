//! NOR flash of embedded-storage 0.3 as the flash of a [`Dfu`](fustrelan::dfu::Dfu).
//!
//! **It was not compiled with the real crate**: none was at hand. It was compiled and tested over a stand-in of ours with the same calls,
//! written from memory.
//!
//! embedded-storage reads flash by copies, and a device reads it in place. So a flash has one trait more, [`Mapped`]: its bytes, where the
//! chip maps them. The slice is `unsafe` code of yours, made anew at each call:
//!
//! ```
//! # use embedded_storage::nor_flash::{ErrorType, NorFlash, NorFlashError, NorFlashErrorKind, ReadNorFlash};
//! use fustrelan::dfu::{Config, Dfu, Ids};
//! use fustrelan_embedded_storage::{Mapped, Nor};
//!
//! # struct Chip(Vec<u8>);
//! # #[derive(Debug)]
//! # struct Never;
//! # impl NorFlashError for Never {
//! #     fn kind(&self) -> NorFlashErrorKind {
//! #         NorFlashErrorKind::Other
//! #     }
//! # }
//! # impl ErrorType for Chip {
//! #     type Error = Never;
//! # }
//! # impl ReadNorFlash for Chip {
//! #     const READ_SIZE: usize = 1;
//! #     fn read(&mut self, at: u32, bytes: &mut [u8]) -> Result<(), Never> {
//! #         Ok(bytes.copy_from_slice(&self.0[at as usize..][..bytes.len()]))
//! #     }
//! #     fn capacity(&self) -> usize {
//! #         self.0.len()
//! #     }
//! # }
//! # impl NorFlash for Chip {
//! #     const WRITE_SIZE: usize = 8;
//! #     const ERASE_SIZE: usize = 2048;
//! #     fn erase(&mut self, from: u32, to: u32) -> Result<(), Never> {
//! #         Ok(self.0[from as usize..to as usize].fill(0xff))
//! #     }
//! #     fn write(&mut self, at: u32, bytes: &[u8]) -> Result<(), Never> {
//! #         Ok(self.0[at as usize..][..bytes.len()].copy_from_slice(bytes))
//! #     }
//! # }
//! # let chip = Chip(vec![0xff; 65536]);
//! impl Mapped for Chip {
//!     fn bytes(&self) -> &[u8] {
//!         &self.0 // on a chip: core::slice::from_raw_parts(0x0800_8000 as *const u8, 65_536), which is unsafe
//!     }
//! }
//!
//! type Device = Dfu<Nor<Chip>, 1024>;
//! let mut flash = Nor(chip);
//! Device::format_if_blank(&mut flash, b"shipped")?;
//! let device = Device::begin(flash, Config::new(Ids { vendor: 0x1209, product: 0x0001, device: 0x0100 }))?;
//! # Ok::<(), Box<dyn std::error::Error>>(())
//! ```
#![no_std]
#![forbid(unsafe_code)]

#[cfg(feature = "async")]
mod awaited;

#[cfg(feature = "async")]
pub use awaited::{AsyncMapped, AsyncNor};

use embedded_storage::nor_flash::NorFlash;
use fustrelan::dfu::{Flash, ReadFlash, Unit};

/// NOR flash that is read where it is mapped.
pub trait Mapped: NorFlash {
    /// Both slots, as they read now: `capacity` bytes.
    fn bytes(&self) -> &[u8];
}

/// NOR flash as a device takes it. Its unit is the smallest of 1, 16, 64 and 256 bytes that is whole writes, and its sector `ERASE_SIZE`,
/// or 256 bytes if that is less. A flash with other sizes does not compile. If you want a larger unit, as for a page of 256 bytes, give
/// your flash the traits [`ReadFlash`] and [`Flash`] by yourself: both are ten lines.
pub struct Nor<F>(pub F);

/// The unit of flash that is written by so many bytes.
const fn unit_of(write_size: usize) -> Unit {
    match Unit::of_writes(write_size) {
        Some(unit) => unit,
        None => panic!("WRITE_SIZE is a power of two up to 256"),
    }
}

/// The sector of flash that is erased by so many bytes.
const fn sector_of(erase_size: usize) -> u32 {
    assert!(erase_size > 0 && erase_size <= 262_144, "ERASE_SIZE is 1 to 262144");
    if erase_size % 256 == 0 {
        return erase_size as u32;
    }
    assert!(256 % erase_size == 0, "ERASE_SIZE divides 256, or is a multiple of it");
    256
}

impl<F: Mapped> ReadFlash for Nor<F> {
    type Error = F::Error;
    const UNIT: Unit = unit_of(F::WRITE_SIZE);
    const SECTOR: u32 = sector_of(F::ERASE_SIZE);

    fn bytes(&self) -> &[u8] {
        self.0.bytes()
    }
}

impl<F: Mapped> Flash for Nor<F> {
    fn erase(&mut self, at: u32) -> Result<(), F::Error> {
        self.0.erase(at, at + Self::SECTOR)
    }

    fn program(&mut self, at: u32, bytes: &[u8]) -> Result<(), F::Error> {
        self.0.write(at, bytes)
    }
}
