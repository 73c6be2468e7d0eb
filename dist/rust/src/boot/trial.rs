// Of crates/dfu_boot/src/trial.rt, whose contracts are taken away.

//! A new image of a slot store runs on trial until it is confirmed. If the new image is not confirmed, the image that was confirmed before
//! becomes active again.

mod again;
mod booting;
mod confirming;
mod ending;
mod looking;
mod marks;
mod operation;
mod standing;
mod starting;
mod tries;

pub use again::look_again;
pub use booting::boot;
pub use confirming::Confirmation;
pub use looking::look;
pub use operation::Operation;
pub use standing::{Settled, Standing, Trial};
pub use starting::Starting;
pub use tries::{TriesFault, check_tries};
