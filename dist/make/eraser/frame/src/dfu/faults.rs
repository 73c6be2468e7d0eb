//! Why a call fails.

use crate::asks::Refusal;
use crate::device::ConfigFault;
use thiserror::Error;

/// Why no device begins.
#[derive(Clone, Copy, Debug, PartialEq, Eq, Error)]
pub enum StartFault {
    /// The configuration is not allowed.
    #[error("the configuration is not allowed: {0}")]
    Config(#[from] ConfigFault),
    /// No image is active: the flash was never formatted, or is damaged, or reads otherwise than it was written.
    #[error("no image is active in the flash")]
    NoImage,
}

/// Why a first image is not put on flash. What the flash had before is given up then, but for `WrongSize` and `TooLarge`, which change
/// nothing.
#[derive(Clone, Copy, Debug, PartialEq, Eq, Error)]
pub enum FormatFault<E> {
    /// The flash has not as many bytes as two slots can have.
    #[error("the flash has not as many bytes as two slots can have")]
    WrongSize,
    /// The image has more bytes than a slot has for it.
    #[error("the image is too large for a slot")]
    TooLarge,
    /// The flash failed.
    #[error("the flash failed: {0:?}")]
    Failed(E),
    /// The flash did not fail, and other bytes were read back.
    #[error("other bytes were read back than were written")]
    NotVerified,
}

/// Why a call for a device is refused. But for `Writes`, [`Dfu::restart`](crate::dfu::Dfu::restart) is what helps; the host begins again.
#[derive(Clone, Copy, Debug, PartialEq, Eq, Error)]
pub enum CallFault {
    /// Operations are due, of a call that was made without I/O: they come first.
    #[error("operations on the flash are due")]
    Writes,
    /// The buffer of the answer has fewer bytes than a block.
    #[error("the buffer of the answer has fewer bytes than a block")]
    NoRoom,
    /// The flash changed: the active image is not where it was.
    #[error("the flash changed under the device")]
    NoMedium,
    /// The device's memory changed, or no operation is due.
    #[error("what is kept is no device on its flash, or no operation is due")]
    NoDevice,
}

impl From<Refusal> for CallFault {
    fn from(refusal: Refusal) -> CallFault {
        match refusal {
            Refusal::Asked => CallFault::Writes,
            Refusal::NoRoom => CallFault::NoRoom,
            Refusal::NoMedium => CallFault::NoMedium,
            Refusal::NoDevice => CallFault::NoDevice,
        }
    }
}
