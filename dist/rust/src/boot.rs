// Of crates/dfu_boot/src/lib.rt, whose contracts are taken away.

//! Start of an image of a slot store: a new image runs on trial first, and an image can be copied to the run area for which it is linked.

pub mod install;
pub mod install_slots;
pub mod trial;
