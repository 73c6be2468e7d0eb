// Of crates/dfu_host/src/fault.rt, whose contracts are taken away.

//! Faults that prevent a session from beginning.

use core::fmt;
use thiserror::Error;

/// A fault that prevents a session from beginning. A call returns the first one that holds, in this order.
#[derive(Clone, Copy, Debug, PartialEq, Eq, Error)]
pub enum HostFault {
    /// The file's payload has no bytes. Only for downloads.
    EmptyPayload,
    /// The file's vendor is neither FFFFh nor the device's, or its product is neither FFFFh nor the device's. The release of the device
    /// isn't compared. Only for downloads.
    WrongTarget,
    /// The descriptor has bitCanDnload 0. Only for downloads.
    CannotDownload,
    /// The descriptor has bitCanUpload 0. Only for uploads and verified downloads.
    CannotUpload,
    /// The descriptor's transfer size is 0.
    BadDescriptor,
}

impl fmt::Display for HostFault {
    fn fmt(&self, f: &mut fmt::Formatter<'_>) -> fmt::Result {
        f.write_str(match self {
            HostFault::EmptyPayload => "the payload is empty",
            HostFault::WrongTarget => "the file is for another device",
            HostFault::CannotDownload => "the device takes no downloads",
            HostFault::CannotUpload => "the device gives no uploads",
            HostFault::BadDescriptor => "the device's transfer size is 0",
        })
    }
}

impl HostFault {
    /// Returns the name of the fault's variant, such as `EmptyPayload`.
    pub fn name(self) -> &'static str {
        crate::wire::variant_name!(self, HostFault:
            EmptyPayload, WrongTarget, CannotDownload, CannotUpload, BadDescriptor
        )
    }
}
