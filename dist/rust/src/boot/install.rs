// Of crates/dfu_boot/src/install.rt, whose contracts are taken away.

//! A run area is flash outside the slot store, and images are linked for its addresses. The calls here return the operations that copy an
//! image to the run area, one by one, and the caller carries out each operation. The calls do not write to flash or allocate memory.

mod area;
mod compare;
mod deciding;
mod due;
mod outcome;
mod pieces;

pub use area::are_blank;
pub use deciding::next;
pub use due::{Due, InstallRefusal};
pub use outcome::took;
pub use pieces::piece;
