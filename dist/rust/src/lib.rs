//! USB device firmware upgrade (USB DFU 1.1): both ends of it, without `unsafe`, and but for the feature `std` without memory of their own.
//!
//! The code is that of proved sources: their contracts are taken away, and nothing else. So no call panics, overflows or goes on without
//! end, if its caller keeps to what its docstring says under "What the caller must keep to". A build with debug assertions tests what
//! can be tested of that.
//!
//! `examples/bootloader.rs` is a whole bootloader, in a hundred lines.
//!
//! | Module | Has | Feature |
//! |---|---|---|
//! | [`wire`] | requests, states and descriptors as bytes | |
//! | [`suffix`] | the suffix of a DFU file, and its CRC | |
#![cfg_attr(feature = "device", doc = "| [`dfu`] | a device that owns its flash and memories, by hand over the others | `device` |")]
#![cfg_attr(feature = "device", doc = "| [`asks`] | a device that asks for each write of its flash: [`asks::Asking`] | `device` |")]
#![cfg_attr(feature = "device", doc = "| [`device`] | a device over a medium that it writes itself: [`device::Device`] | `device` |")]
#![cfg_attr(feature = "device", doc = "| [`slots`] | a store of two slots, which keeps one whole image active | `device` |")]
#![cfg_attr(feature = "device", doc = "| [`boot`] | a new image on trial, and its copy to where it runs | `device` |")]
#![cfg_attr(feature = "device", doc = "| [`home`] | two areas: the active image comes to the slot where it runs | `device` |")]
#![cfg_attr(feature = "device", doc = "| [`places`] | where gates, headers and data lie on unequal sectors | `device` |")]
#![cfg_attr(feature = "host", doc = "| [`host`] | a machine that says which request comes next: [`host::Session`] | `host` |")]
#![cfg_attr(feature = "dfuse", doc = "| [`dfuse`] | ST's extension: memories, a session, files | `dfuse` |")]
#![cfg_attr(feature = "formats", doc = "| [`formats`] | Intel HEX, S-records, UF2 and ELF | `formats` |")]
#![cfg_attr(feature = "judge", doc = "| [`conformance`] | could a device that keeps the standard have answered so? | `judge` |")]
#![cfg_attr(feature = "judge", doc = "| [`dfuse_conformance`] | and one that keeps ST's extension? | `judge` |")]
#![no_std]
#![forbid(unsafe_code)]

#[cfg(feature = "std")]
extern crate alloc;
#[cfg(feature = "std")]
extern crate std;

pub mod wire;

#[cfg_attr(not(feature = "std"), allow(dead_code))]
pub mod suffix;

#[cfg(feature = "device")]
#[cfg_attr(not(feature = "std"), allow(dead_code))]
pub mod slots;

#[cfg(feature = "device")]
pub mod device;

#[cfg(feature = "device")]
#[allow(clippy::needless_lifetimes)]
pub mod asks;

#[cfg(feature = "device")]
pub mod boot;

#[cfg(feature = "device")]
pub mod home;

#[cfg(feature = "device")]
pub mod places;

#[cfg(feature = "device")]
pub mod dfu;

#[cfg(feature = "host")]
pub mod host;

#[cfg(feature = "dfuse")]
pub mod dfuse;

#[cfg(feature = "formats")]
pub mod formats;

#[cfg(feature = "judge")]
pub mod conformance;

#[cfg(feature = "judge")]
pub mod dfuse_conformance;

#[cfg(feature = "std")]
pub mod memory;
