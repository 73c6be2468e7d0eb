// Of crates/dfu_suffix/src/gathering.rt, whose contracts are taken away.

//! Gathers all bytes of a reader, up to a limit.

use crate::suffix::file::{MAX_READS, READ_BYTES};
use crate::memory::{Global, Vec};
use std::io::Read;

/// Fault of `gather`.
#[derive(Clone, Copy, Debug, PartialEq, Eq)]
pub enum GatherFault {
    /// The reader has more bytes than the limit.
    TooLarge,
    /// An allocation was refused.
    NoMemory,
    /// The reader failed.
    Read,
}

/// Gathers all bytes of the reader, at most `limit`. Each read fetches at most 16,384 bytes.
///
/// # Errors
///
/// TooLarge after the first byte beyond the limit was read, without another read; Read at the first error of the reader, without a retry;
/// NoMemory if an allocation was refused.
///
/// # What the caller must keep to
///
/// - `limit` is at most 16,777,216.
pub fn gather<R: Read>(
    alloc: Global,
    mut reader: R,
    limit: usize,
) -> Result<Vec<u8>, GatherFault> {
    debug_assert!(limit <= 16_777_216);
    let mut bytes = Vec::new(alloc);
    let mut buffer = [0u8; READ_BYTES];
    for _turn in 0..MAX_READS {
        match reader.read(&mut buffer) {
            Ok(0) => return Ok(bytes),
            Ok(taken) => {
                if taken > limit - bytes.len() {
                    return Err(GatherFault::TooLarge);
                }
                let Ok(()) = bytes.extend_from_slice(&buffer[..taken]) else {
                    return Err(GatherFault::NoMemory);
                };
            }
            Err(_) => return Err(GatherFault::Read),
        }
    }
    unreachable!()
}
