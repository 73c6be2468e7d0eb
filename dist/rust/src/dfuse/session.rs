// Of crates/dfuse_host/src/lib.rt, whose contracts are taken away.

//! The host of DfuSe: a state machine that selects the next request or wait until an image is stored in a device's memory and has been read
//! back.
//!
//! The machine sends nothing itself, and allocates no memory.

mod action;
mod asking;
mod clearing;
mod closing;
mod command;
mod fault;
mod heard;
mod image;
mod limits;
mod phase;
mod place;
mod plan;
mod reading;
mod refusing;
mod report;
mod rows;
mod seen;
mod sending;
mod session;
mod settling;
mod step;
mod work;

pub use action::Action;
pub use crate::dfuse::file::Element;
pub use fault::PlanFault;
pub use limits::Limits;
pub use phase::{Phase, Standing};
pub use place::Place;
pub use plan::Plan;
pub use report::{Leaving, Report};
pub use seen::Seen;
pub use session::Session;
pub use step::Step;
pub use work::Work;
