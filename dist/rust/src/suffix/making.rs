// Of crates/dfu_suffix/src/making.rt, whose contracts are taken away.

//! The suffix of a payload (USB DFU 1.1, appendix B), and a test for bytes that already have one.

use crate::suffix::crc::Crc;
use crate::suffix::fault::SuffixFault;
use crate::suffix::file::MIN_SUFFIX;
use crate::suffix::parse::read;
use crate::wire::Ids;
use crate::memory::{AllocError, Vec};

/// Returns the fields before dwCRC in a suffix with `ids`. bcdDFU is 0100h, and bLength is 16.
fn fields_of(ids: Ids) -> [u8; 12] {
    let device = ids.device.to_le_bytes();
    let product = ids.product.to_le_bytes();
    let vendor = ids.vendor.to_le_bytes();
    [
        device[0],
        device[1],
        product[0],
        product[1],
        vendor[0],
        vendor[1],
        0x00,
        0x01,
        b'U',
        b'F',
        b'D',
        MIN_SUFFIX as u8,
    ]
}

/// Returns dwCRC, the register over `payload` and the `fields` after it.
fn crc_over(payload: &[u8], fields: &[u8]) -> u32 {
    let mut crc = Crc::new();
    crc.update_long(payload);
    crc.update(fields);
    crc.value()
}

/// Appends the suffix to the payload `text`. If an allocation is refused, `text` may contain a part of the suffix.
pub(crate) fn append_suffix(text: &mut Vec<u8>, ids: Ids) -> Result<(), AllocError> {
    let fields = fields_of(ids);
    let crc = crc_over(text, &fields);
    match text.extend_from_slice(&fields) {
        Ok(()) => text.extend_from_slice(&crc.to_le_bytes()),
        Err(refused) => Err(refused),
    }
}

/// Returns true if `fault` is `DfuSe`.
fn is_dfuse(fault: SuffixFault) -> bool {
    match fault {
        SuffixFault::DfuSe => true,
        _ => false,
    }
}

/// Returns true if `bytes` already have a suffix, even that of a DfuSe file.
pub(crate) fn has_suffix(bytes: &[u8]) -> bool {
    match read(bytes) {
        Ok(_) => true,
        Err(fault) => is_dfuse(fault),
    }
}
