//! Flashes a device with USB DFU 1.1 over nusb 0.1, by the proved host of fustrelan.
//!
//! | Module | Has |
//! |---|---|
//! | [`mod@file`] | what a file is, and which are refused |
//! | [`port`] | what a session needs of a device on a bus: the trait [`port::Port`] |
//! | [`begin`] | why no session begins |
//! | [`session`] | a session: [`session::flash`] |
//! | `bus` | a device by nusb, on Linux and macOS: it never met a real device |
//! | [`stand_in`] | a device in this process, in place of one |
//!
//! ```
//! use fustrelan::host::Report;
//! use fustrelan::wire::Ids;
//! use fustrelan_nusb::{file::file_of, session::{End, flash}, stand_in::StandIn};
//!
//! let ids = Ids { vendor: 0x1209, product: 0x0001, device: 0x0100 };
//! let mut device = StandIn::new(ids, &[0; 4]); // or Bus::find(&wanted)?
//! let file = file_of(&[1, 2, 3], "image.bin", Some(ids), false)?;
//! assert_eq!(flash(&mut device, &file)?, End::Report(Report::Verified));
//! assert_eq!(device.image(), Some(&[1, 2, 3][..]));
//! # Ok::<(), Box<dyn std::error::Error>>(())
//! ```
//!
//! A device is taken only if it is the only one that is wanted. One that left is asked again only at its place, and only if it is the same
//! in the same mode; a device of DfuSe and a file of another format are refused. What dfu-flash has and this has not: DfuSe, uploads,
//! devices with several alternate settings, the DETACH to a device that stalls GETSTATUS in run-time mode, another descriptor in place of
//! an odd one in run-time mode, and Windows.
#![forbid(unsafe_code)]

pub mod begin;
#[cfg(not(windows))]
pub mod bus;
pub mod file;
pub mod port;
pub mod session;
pub mod stand_in;
