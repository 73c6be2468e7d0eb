//! A device that owns its flash and its memories: [`Dfu`], the first thing to take for a bootloader.
//!
//! It is written by hand over the proved [`asks::Asking`](crate::asks::Asking), has no `unsafe`, and is tested, not proved.
//!
//! | You have | Take |
//! |---|---|
//! | a USB stack, and flash that is written within a call ([`Flash`]) | [`Interface`], which keeps what each stack needs besides |
//! | flash that is awaited ([`AsyncFlash`]) | [`Dfu::handle_async`] |
//! | flash that is written by interrupts | [`Dfu::request`], [`Dfu::pending`] and [`Dfu::done`] |
//!
//! The flash is yours, by two traits:
//!
//! ```
//! use fustrelan::dfu::{Dfu, Flash, ReadFlash, Unit};
//!
//! struct Chip([u8; 2 * (2 * 1024 + 30 * 1024)]);
//!
//! impl ReadFlash for Chip {
//!     type Error = ();
//!     const UNIT: Unit = Unit::Bytes16;
//!     const SECTOR: u32 = 1024;
//!     fn bytes(&self) -> &[u8] {
//!         &self.0
//!     }
//! }
//!
//! impl Flash for Chip {
//!     fn erase(&mut self, at: u32) -> Result<(), ()> {
//!         Ok(self.0[at as usize..][..1024].fill(0xff))
//!     }
//!     fn program(&mut self, at: u32, bytes: &[u8]) -> Result<(), ()> {
//!         Ok(self.0[at as usize..][..bytes.len()].copy_from_slice(bytes))
//!     }
//! }
//!
//! let mut chip = Chip([0xff; 65_536]);
//! assert_eq!(Dfu::<_, 1024>::format_if_blank(&mut chip, b"shipped"), Ok(true));
//! assert_eq!(Dfu::<_, 1024>::image(&chip), Some(&b"shipped"[..]));
//! ```

mod awaited;
mod blocking;
mod check;
mod config;
mod device;
mod faults;
mod flash;
mod format;
mod interface;
mod memory;
mod steps;

pub use crate::device::{ConfigFault, Objection};
pub use crate::wire::{Code, Ids, State};
pub use check::Candidate;
pub use config::Config;
pub use device::{Dfu, Reply};
pub use faults::{CallFault, FormatFault, StartFault};
pub use flash::{AsyncFlash, Flash, Operation, ReadFlash, Unit};
pub use interface::Interface;
pub use memory::Memory;
pub use steps::Progress;
