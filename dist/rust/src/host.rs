// Of crates/dfu_host/src/lib.rt, whose contracts are taken away.

//! The host of USB device firmware upgrade (USB DFU 1.1): a state machine that returns the next request, wait or reset of a session, and at
//! the end its report.
//!
//! The state machine does no I/O. Only the calls that begin a session can fail, and only `take` of an upload takes memory.

mod action;
mod comparing;
mod ending;
mod fault;
mod fetching;
mod goal;
mod heard;
#[cfg(feature = "std")]
mod host;
mod limits;
mod part;
mod parts;
mod phase;
mod progress;
mod refusing;
mod report;
mod room;
mod row;
mod seen;
mod session;
mod target;
mod task;

pub use action::Action;
pub use fault::HostFault;
pub use goal::Goal;
#[cfg(feature = "std")]
pub use host::Host;
pub use limits::Limits;
pub use parts::Parts;
pub use phase::Phase;
pub use report::Report;
pub use seen::Seen;
pub use session::Session;
