// Of crates/dfu_suffix/src/adding.rt, whose contracts are taken away.

//! Adds a suffix to the bytes of a reader.

use crate::suffix::fault::SuffixFault;
use crate::suffix::file::MAX_PAYLOAD;
use crate::suffix::gathering::{GatherFault, gather};
use crate::suffix::making::{append_suffix, has_suffix};
use crate::suffix::writing::write_whole;
use crate::wire::Ids;
use crate::memory::{Global, Vec};
use std::io::{Read, Write};

/// Returns the fault of `add` for a fault of `gather`.
fn fault_of(fault: GatherFault) -> SuffixFault {
    match fault {
        GatherFault::TooLarge => SuffixFault::TooLarge,
        GatherFault::NoMemory => SuffixFault::NoMemory,
        GatherFault::Read => SuffixFault::Read,
    }
}

/// Appends the suffix with `ids` to `payload`, and returns the file. The fault is AlreadySuffixed or NoMemory.
fn with_suffix(mut payload: Vec<u8>, ids: Ids) -> Result<Vec<u8>, SuffixFault> {
    if has_suffix(&payload) {
        return Err(SuffixFault::AlreadySuffixed);
    }
    match append_suffix(&mut payload, ids) {
        Ok(()) => Ok(payload),
        Err(_) => Err(SuffixFault::NoMemory),
    }
}

/// Returns the reader's bytes, followed by a suffix with `ids`. The faults are those of `add`, except Write.
fn file_of<R: Read>(alloc: Global, reader: R, ids: Ids) -> Result<Vec<u8>, SuffixFault> {
    match gather(alloc, reader, MAX_PAYLOAD) {
        Ok(payload) => with_suffix(payload, ids),
        Err(fault) => Err(fault_of(fault)),
    }
}

/// Writes all bytes of a reader, followed by a suffix of 16 bytes with these identifiers and bcdDFU 0100h (USB DFU 1.1, appendix B).
/// Returns the number of bytes written, at most 16,777,216. The whole file is gathered in memory before its first byte is written. The
/// writer is not flushed, because the caller keeps it.
///
/// # Errors
///
/// TooLarge after byte 16,777,201 was read, without another read; Read at the first error of the reader, without a retry; AlreadySuffixed
/// exactly if `read` would return Ok or DfuSe for the bytes; NoMemory if an allocation was refused while the bytes are gathered or, after
/// the test for AlreadySuffixed, for the suffix. After these faults, nothing is written. Write at the first error of the writer, without a
/// retry, and if the writer accepts none of the remaining bytes. After Write, only a prefix of the file is written.
pub fn add<R: Read, W: Write>(
    alloc: Global,
    reader: R,
    ids: Ids,
    writer: &mut W,
) -> Result<u32, SuffixFault> {
    match file_of(alloc, reader, ids) {
        Ok(text) => match write_whole(writer, &text) {
            Ok(()) => Ok(text.len() as u32),
            Err(_) => Err(SuffixFault::Write),
        },
        Err(fault) => Err(fault),
    }
}
