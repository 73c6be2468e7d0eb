//! How a session begins: by the device's functional descriptor, and with limits.

use crate::port::Found;
use fustrelan::host::{HostFault, Limits, Session};
use fustrelan::suffix::{File, SuffixFault};
use fustrelan::wire::{Functional, WireFault};
use thiserror::Error;

/// The most bytes of a control transfer on Linux, and so of a block.
pub(crate) const MOST_BYTES: u16 = 4096;
/// bcdDFUVersion of ST's extension.
const VERSION_DFUSE: u16 = 0x011a;

/// Why no session begins. No byte of the image was sent.
#[derive(Clone, Copy, Debug, PartialEq, Eq, Error)]
pub enum BeginFault {
    /// The file has no sound suffix.
    #[error("{0}")]
    File(#[from] SuffixFault),
    /// The device's functional descriptor is none.
    #[error("the device's functional descriptor: {0}")]
    Functional(#[from] WireFault),
    /// The device has ST's extension, and would take the blocks for commands.
    #[error("the device has DfuSe, and would take blocks for commands")]
    DfuSe,
    /// The host refuses.
    #[error("{0}")]
    Host(#[from] HostFault),
}

/// A session with a device. A clean one takes up to 5 actions a block; the limits are those of dfu-flash.
pub(crate) fn begin<'f>(found: &Found, file: &File<'f>) -> Result<Session<'f>, BeginFault> {
    let mut functional = Functional::decode(&found.functional)?;
    if functional.version == VERSION_DFUSE {
        return Err(BeginFault::DfuSe);
    }
    functional.transfer = functional.transfer.min(MOST_BYTES);
    let blocks = file.payload().len() / usize::from(functional.transfer.max(1)) + 1;
    let limits = Limits { actions: u32::try_from(40 * blocks + 300).unwrap_or(u32::MAX), restarts: 3 };
    Ok(if functional.can_upload {
        Session::download_verified(file, &functional, found.ids, limits)?
    } else {
        Session::download(file, &functional, found.ids, limits)?
    })
}
