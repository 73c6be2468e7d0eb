// Of crates/dfu_formats/src/dfuse/suffix.rt, whose contracts are taken away.

//! The suffix with bcdDFU 011Ah, which ends a DfuSe file.

use crate::dfuse::file::fault::FileFault;
use byteorder::{ByteOrder, LittleEndian};
use crate::suffix::{Crc, SuffixFault};
use crate::wire::Ids;

/// The bytes before the suffix and the identifiers in the suffix.
#[derive(Debug, PartialEq, Eq)]
pub(crate) struct PayloadAndIds<'f> {
    pub payload: &'f [u8],
    pub ids: Ids,
}

/// Returns the last 16 bytes of `bytes`.
fn tail(bytes: &[u8]) -> &[u8] {
    let (_, tail) = bytes.split_at(bytes.len() - 16);
    tail
}

/// Returns the number in the two bytes from index `place` of `tail` on, the low byte first.
fn field(place: usize, tail: &[u8]) -> u16 {
    let (_, field) = tail.split_at(place);
    LittleEndian::read_u16(field)
}

/// Returns true if dwCRC isn't the CRC register over the bytes before it.
fn has_bad_crc(bytes: &[u8]) -> bool {
    let (before, _) = bytes.split_at(bytes.len() - 4);
    let (_, crc) = tail(bytes).split_at(12);
    let mut over = Crc::new();
    over.update_small(before);
    LittleEndian::read_u32(crc) != over.value()
}

/// Returns the payload and the identifiers, which are taken from the last 16 bytes.
fn payload_and_ids_of(bytes: &[u8]) -> PayloadAndIds<'_> {
    let tail = tail(bytes);
    let (payload, _) = bytes.split_at(bytes.len().saturating_sub(tail[11] as usize));
    PayloadAndIds {
        payload,
        ids: Ids {
            device: field(0, tail),
            product: field(2, tail),
            vendor: field(4, tail),
        },
    }
}

/// Returns true for the fault `DfuSe`, which suffix reports for every DfuSe file.
fn is_dfuse(fault: SuffixFault) -> bool {
    match fault {
        SuffixFault::DfuSe => true,
        _ => false,
    }
}

/// Returns the refusal of a file with a fault other than `DfuSe`.
fn refusal(fault: SuffixFault) -> FileFault {
    match fault {
        SuffixFault::TooLarge => FileFault::TooLarge,
        SuffixFault::TooShort => FileFault::TooShort,
        SuffixFault::NoSignature => FileFault::NoSignature,
        SuffixFault::BadLength => FileFault::BadLength,
        _ => FileFault::NotDfuSe,
    }
}

/// Returns the payload and the identifiers of a file with bcdDFU 011Ah, or BadCrc if its CRC is wrong.
fn read_signed(bytes: &[u8]) -> Result<PayloadAndIds<'_>, FileFault> {
    if has_bad_crc(bytes) {
        Err(FileFault::BadCrc)
    } else {
        Ok(payload_and_ids_of(bytes))
    }
}

/// Reads the suffix, or returns its first fault. The CRC is computed with the small table, because a file is read only once, and the large
/// tables would enlarge the library for C.
pub(crate) fn read_suffix(bytes: &[u8]) -> Result<PayloadAndIds<'_>, FileFault> {
    let fault = match crate::suffix::read_small(bytes) {
        Ok(_) => return Err(FileFault::NotDfuSe),
        Err(fault) => fault,
    };
    if is_dfuse(fault) {
        read_signed(bytes)
    } else {
        Err(refusal(fault))
    }
}
