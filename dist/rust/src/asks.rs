// Of crates/dfu_asks/src/lib.rt, whose contracts are taken away.

//! A device that requests each write of its medium from the caller, who carries it out.

mod asking;
mod blank;
mod calls;
mod candidate;
mod carry;
mod closes;
mod cut;
mod due;
mod finish;
mod format;
mod format_piece;
mod formatting;
mod gates;
mod image;
mod long;
mod next_and_took;
mod next_piece;
mod noted;
mod pending_writes;
mod power;
mod refuse;
mod reply;
mod sector;
mod stalls;
mod start;

pub use asking::Asking;
pub use calls::addressed;
pub use closes::mode_closes;
pub use due::mode_due;
pub use formatting::{FormatProgress, FormatStep, Formatting};
pub use image::ImagePlace;
pub use long::mode_after_long;
pub use next_piece::MAX_PROGRAM;
pub use noted::{Mapped, Noted};
pub use pending_writes::{PendingWrites, SlotWrite};
pub use reply::{FlashOp, Refusal, Reply};
pub use sector::Sector;
pub use stalls::mode_stalls;
