//! What every source may name without a path.

pub use super::alloc::AllocGlobal;
pub use super::io::{Eprint, Input, Print};
pub use super::machine::Machine as HostRuntime;
pub use super::text::{String, ToText};
pub use fustrelan::memory::Vec;
