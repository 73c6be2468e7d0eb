// Of crates/dfu_slots/src/lib.rt, whose contracts are taken away.

//! A store with two image slots on a medium whose writes may fail or be torn. One slot keeps a whole firmware image active while the next
//! image is written into the other.

mod both;
mod carry;
mod changes;
mod erasing;
mod fault;
mod format;
mod gates;
mod layout;
mod medium;
mod noted;
mod operation;
mod places;
mod puts;
mod read;
mod register;
mod sequence;
#[cfg(feature = "std")]
mod sim;
mod slots;
mod steps;
mod writes;

// `check_both` and `check` are for callers that read a medium without a store.
pub use both::{Both, check_both};
pub use fault::{FormatFault, OpenFault, PutFault, WriteFault};
pub use layout::{
    MAX_SECTOR, MAX_UNIT, OPEN_GATE, PAGE, Unit, VERSION, capacity_of, gate_of, is_sized,
    length_in, make_header,
};
pub use medium::{Failed, Faulty, Medium};
pub use noted::{LastWrites, WriteEnd, WriteNote};
pub use operation::{Op, Source};
pub use places::{Places, check};
pub use read::{
    crc_of_flash, data_at, flash_byte_at, generation, header_of, is_flash_erased, is_open,
    read_data, read_flash,
};
pub use sequence::{MAX_OPERATIONS, Sequence};
#[cfg(feature = "std")]
pub use sim::{NoMemory, SimMedium};
pub use slots::Slots;
