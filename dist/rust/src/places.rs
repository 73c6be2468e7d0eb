// Of crates/dfu_places/src/lib.rt, whose contracts are taken away.

//! Placements: the addresses of the gates, headers and data of two slots on a part with sectors of different sizes.

mod checking;
mod finding;
mod free;
mod placement;
mod planning;
mod refusal;
mod region;

pub use checking::check;
pub use finding::{erased, find, virtual_len};
pub use placement::{Needs, Placement, SlotPlaces};
pub use planning::{Areas, plan};
pub use refusal::{PlacementRefusal, Thing};
pub use region::{Region, Span};
