// Of crates/dfu_home/src/lib.rt, whose contracts are taken away.

//! Copying of the active image into the first slot, from which it runs. Images are linked for the first slot's data, so the active image
//! must be in the first slot before it starts.

mod asking;
mod bytes;
mod copying;
mod deciding;
mod due;
mod outcome;

pub use asking::is_home;
pub use deciding::next;
pub use due::{CopyRefusal, Due, Progress};
pub use outcome::took;
