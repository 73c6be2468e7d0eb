// Of crates/dfu_suffix/src/lib.rt, whose contracts are taken away.

//! The DFU file: a payload and its suffix (USB DFU 1.1, appendix B).
//!
//! `read` and `read_small` parse a whole file, and `check` checks the bytes of a reader. `add` writes a file with a payload and its suffix.
//! `Crc` is the register whose value becomes dwCRC. `gather` and `write_whole` are loops over streams, which other crates use too. The
//! crate opens no file and prints nothing.

#[cfg(feature = "std")]
mod adding;
#[cfg(feature = "std")]
mod checking;
mod crc;
mod fault;
mod file;
mod findings;
mod folding;
#[cfg(feature = "std")]
mod gathering;
#[cfg(feature = "std")]
mod making;
mod parse;
mod small;
mod summary;
mod table;
#[cfg(feature = "std")]
mod writing;

#[cfg(feature = "std")]
pub use adding::add;
#[cfg(feature = "std")]
pub use checking::{check, check_with};
pub use crc::Crc;
pub use fault::SuffixFault;
pub use file::{File, READ_BYTES};
pub use findings::Findings;
#[cfg(feature = "std")]
pub use gathering::{GatherFault, gather};
pub use parse::{read, read_small};
pub use summary::Summary;
#[cfg(feature = "std")]
pub use writing::{OutputError, write_whole};
