//! Strings of devices and of no device, with what they say, worked out by hand.

mod lookups;
mod refused;
mod rows;

use fustrelan::dfuse::memory::{Access, Pages};

/// A range whose access is given by letters, such as `rew`.
fn pages(start: u32, count: u32, size: u64, access: &str) -> Pages {
    Pages {
        start,
        size,
        count,
        access: Access {
            is_readable: access.contains('r'),
            is_erasable: access.contains('e'),
            is_writable: access.contains('w'),
        },
    }
}
