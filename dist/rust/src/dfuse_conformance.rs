// Of crates/dfu_conformance/src/dfuse.rt, whose contracts are taken away.

//! Checks that a DfuSe device could have given the answers in a log. DfuSe adds rows to the tables of USB DFU 1.1, and a judge follows all
//! possible states of such a device at once.

mod judge;
mod rows;
mod speaks;
mod stands;
mod whole;

pub use judge::DfuseJudge;
pub use rows::DFUSE;
pub use speaks::{is_of_dfuse, is_told};
pub use whole::first_departure;
