// Of crates/dfu_wire/src/functionals.rt, whose contracts are taken away.

//! The functional descriptor (USB DFU 1.1 and USB DFU 1.0, section 4.1.3 of each).

use crate::wire::WireFault;
use crate::wire::bytes::{is_set, number_at, two_bytes};

/// bLength of a functional descriptor of DFU 1.1.
const LENGTH: u8 = 9;

/// bLength of a functional descriptor of DFU 1.0, which ends before bcdDFUVersion.
const LENGTH_1_0: u8 = 7;

/// bcdDFUVersion of DFU 1.0.
const VERSION_1_0: u16 = 0x0100;

/// bDescriptorType of every functional descriptor.
const TYPE: u8 = 0x21;

/// Functional descriptor, in which a device describes its upgrades. It has 9 bytes, or 7 in DFU 1.0, which has no bcdDFUVersion.
///
/// | Bytes | Field of the standard | Field here |
/// |---|---|---|
/// | 0 | bLength: 9, or 7 in DFU 1.0 | |
/// | 1 | bDescriptorType, always 21h | |
/// | 2 | bmAttributes: bits 0 to 3 | the four flags, in their order here |
/// | 3, 4 | wDetachTimeOut, milliseconds | `detach_ms` |
/// | 5, 6 | wTransferSize, bytes | `transfer` |
/// | 7, 8 | bcdDFUVersion, such as 0110h; 0100h if there are 7 bytes | `version` |
///
/// Bits 4 to 7 of bmAttributes are reserved: the decoder ignores them, and the encoder writes 0. The decoder reads bit 3 in both versions,
/// although DFU 1.0 reserves it.
#[derive(Clone, Copy, Debug, PartialEq, Eq)]
pub struct Functional {
    /// bitCanDnload: a host may download an image.
    pub can_download: bool,
    /// bitCanUpload: a host may upload the image.
    pub can_upload: bool,
    /// bitManifestationTolerant: the device still answers requests after the manifestation of a new image.
    pub tolerant: bool,
    /// bitWillDetach: the device detaches by itself after DETACH.
    pub will_detach: bool,
    /// wDetachTimeOut: time in milliseconds that the device waits for a reset after DETACH.
    pub detach_ms: u16,
    /// wTransferSize: largest number of bytes in a block.
    pub transfer: u16,
    /// bcdDFUVersion: the version of the standard, as binary-coded decimal.
    pub version: u16,
}

impl Functional {
    /// Returns the descriptor with bmAttributes `attributes`, whose bits 4 to 7 are ignored, wDetachTimeOut `detach_ms`, wTransferSize
    /// `transfer` and bcdDFUVersion `version`.
    pub fn of_attributes(attributes: u8, detach_ms: u16, transfer: u16, version: u16) -> Functional {
        Functional {
            can_download: is_set(attributes, 0),
            can_upload: is_set(attributes, 1),
            tolerant: is_set(attributes, 2),
            will_detach: is_set(attributes, 3),
            detach_ms,
            transfer,
            version,
        }
    }

    /// Decodes `bytes` as a functional descriptor. The faults, in the order of the checks:
    ///
    /// 1. `Short`: there are no bytes.
    /// 2. `WrongLength`: the first byte is neither 7 nor 9.
    /// 3. `Short`: there are fewer bytes than the first byte specifies.
    /// 4. `Long`: there are more bytes than the first byte specifies.
    /// 5. `WrongType`: the second byte is not 21h.
    pub fn decode(bytes: &[u8]) -> Result<Functional, WireFault> {
        if bytes.is_empty() {
            return Err(WireFault::Short);
        }
        let length = bytes[0];
        if length != LENGTH && length != LENGTH_1_0 {
            return Err(WireFault::WrongLength);
        }
        if bytes.len() < usize::from(length) {
            return Err(WireFault::Short);
        }
        if bytes.len() > usize::from(length) {
            return Err(WireFault::Long);
        }
        if bytes[1] != TYPE {
            return Err(WireFault::WrongType);
        }
        let version = if length == LENGTH {
            number_at(bytes, 7)
        } else {
            VERSION_1_0
        };
        Ok(Functional::of_attributes(bytes[2], number_at(bytes, 3), number_at(bytes, 5), version))
    }

    /// Encodes the descriptor in the form of DFU 1.1, with 9 bytes for every version and with the reserved bits 0. `decode` of the result
    /// returns an equal descriptor.
    pub fn encode(&self) -> [u8; 9] {
        let Functional {
            can_download,
            can_upload,
            tolerant,
            will_detach,
            detach_ms,
            transfer,
            version,
        } = *self;
        let attributes = attributes_of(can_download, can_upload, tolerant, will_detach);
        let [detach_low, detach_high] = two_bytes(detach_ms);
        let [transfer_low, transfer_high] = two_bytes(transfer);
        let [version_low, version_high] = two_bytes(version);
        [
            LENGTH,
            TYPE,
            attributes,
            detach_low,
            detach_high,
            transfer_low,
            transfer_high,
            version_low,
            version_high,
        ]
    }
}

/// Returns bmAttributes with these four flags. The reserved bits are 0.
fn attributes_of(can_download: bool, can_upload: bool, tolerant: bool, will_detach: bool) -> u8 {
    u8::from(can_download)
        | u8::from(can_upload) << 1
        | u8::from(tolerant) << 2
        | u8::from(will_detach) << 3
}
