//! The program `dfu`: files of USB DFU 1.1, a simulated link of a host and a device, and a judge of their traffic.
//!
//! The code is that of proved sources, whose contracts are taken away, but for [`system`], which is written by hand: it stands for what
//! those sources ask of the system they were proved over.
//!
//! | Module | Has |
//! |---|---|
//! | [`sim`] | the link of a host and a device, event by event |
//! | [`link`] | scripts of events, what they print, and a line for each action |
//! | [`pcap`] | captures of usbmon and of USBPcap |
//! | [`output`] | the lines that are printed |
//! | [`files`] | files that are checked, made and replaced; lines as JSON objects |
//! | [`plan`] | a table of parts, and the text of a placement on one |
//! | [`words`], [`command`] | the words of the command line, and what is done |
//! | [`callers`] | a bootloader, a flashing tool and two media, each over a trait of its driver: no command uses them |
#![no_std]
#![deny(unsafe_code)]

extern crate alloc;
extern crate std;

#[macro_use]
pub mod system;

pub mod callers;
pub mod command;
pub mod files;
pub mod link;
pub mod output;
pub mod pcap;
pub mod plan;
pub mod sim;
pub mod words;
