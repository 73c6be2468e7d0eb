// Of crates/dfu_formats/src/memory.rt, whose contracts are taken away.

//! The memory map of a DfuSe device: ranges of pages, read from the string of an alternate setting.

mod apart;
mod digits;
mod fault;
mod group;
mod limits;
mod lookups;
mod map;
mod name;
mod pages;
mod place;
mod ranges;
mod text;

pub use fault::MapFault;
pub use map::Map;
pub use pages::{Access, Page, Pages};
