// Of crates/dfu_formats/src/images.rt, whose contracts are taken away.

//! Images in the files that builds produce: bytes with addresses.
//!
//! If the bytes of a record begin where those of the record before it end, they extend its element. Otherwise they begin a new element, so
//! two elements may touch if other records are between theirs in the file. A file may have at most 16,777,216 bytes of data and 1,024
//! elements. Overlaps are checked after the whole file is read.

mod digits;
mod element;
pub mod elf;
mod endings;
mod fault;
mod format;
mod gathering;
pub mod ihex;
mod laying;
mod limits;
mod lines;
mod looks;
mod making;
mod numbers;
mod parts;
mod places;
pub mod srec;
mod srec_line;
mod text;
pub mod uf2;

pub use digits::hex_digit;
pub use element::Element;
pub use endings::Ending;
pub use fault::ImageFault;
pub use format::Format;
pub use laying::{LayFault, lay, lowest};
pub use looks::{Look, Looks, NotImage, look_at};
pub use making::{Image, ImageFileFault, image_of};
pub use places::{Place, bad_place};
