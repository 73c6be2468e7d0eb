// Of crates/dfuse_host/src/fault.rt, whose contracts are taken away.

//! Faults of a plan.

use core::fmt;
use thiserror::Error;

/// Fault because of which a session refuses a plan before it sends anything. If a plan has several faults, the first one in this order is
/// reported.
#[derive(Clone, Copy, Debug, PartialEq, Eq, Error)]
pub enum PlanFault {
    /// The transfer size is 0.
    NoTransferSize,
    /// The image has no element, or an element has no bytes.
    EmptyImage,
    /// An element begins before the previous one begins.
    NotInOrder,
    /// An element begins before the previous one ends.
    Overlapping,
    /// The map doesn't contain an address of the image.
    OutsideTheMap,
    /// A page of the image can't be written.
    NotWritable,
    /// A page of the image can't be erased, for example because it holds option bytes.
    NotErasable,
    /// A page of the image can't be read back.
    NotReadable,
}

impl fmt::Display for PlanFault {
    fn fmt(&self, f: &mut fmt::Formatter<'_>) -> fmt::Result {
        f.write_str(match self {
            PlanFault::NoTransferSize => "the device takes blocks of 0 bytes",
            PlanFault::EmptyImage => "the image or one of its elements is empty",
            PlanFault::NotInOrder => "the image's elements do not ascend",
            PlanFault::Overlapping => "the image's elements overlap",
            PlanFault::OutsideTheMap => "the image is not all on the memory map",
            PlanFault::NotWritable => "the image touches a page that cannot be written",
            PlanFault::NotErasable => "the image touches a page that cannot be erased",
            PlanFault::NotReadable => "the image touches a page that cannot be read back",
        })
    }
}
