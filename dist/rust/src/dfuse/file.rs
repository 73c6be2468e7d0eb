// Of crates/dfu_formats/src/dfuse.rt, whose contracts are taken away.

//! DfuSe files (ST's UM0391). Their elements are bytes with addresses, for the memory of a device.
//!
//! `read` parses a whole file. `File::image` lists the elements of one alternate setting, sorted by address, as `dfuse::session` needs them.
//! `read_raw` makes an element of a file without addresses, and `list` converts the elements that `formats` reads. No call
//! allocates memory.

mod element;
mod elements;
mod fault;
mod file;
mod headings;
mod image;
mod listing;
mod marks;
mod numbers;
mod raw;
mod suffix;
mod targets;

pub use element::Element;
pub use elements::Elements;
pub use fault::FileFault;
pub use file::{File, read};
pub use image::ImageFault;
#[cfg(feature = "formats")]
pub use listing::list;
pub use raw::{RawFault, read_raw};
pub use targets::{Target, Targets};
