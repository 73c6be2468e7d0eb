//! Memory that may be refused.

pub use fustrelan::memory::{AllocError, Global};

/// What gives the allocator of the program.
pub trait AllocGlobal {
    /// The allocator.
    fn alloc(&self) -> Global {
        Global
    }
}
