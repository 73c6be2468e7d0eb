// Of crates/dfu_suffix/src/checking.rt, whose contracts are taken away.

//! Checks the file that a reader returns.

use crate::suffix::crc::Crc;
use crate::suffix::fault::SuffixFault;
use crate::suffix::file::{MAX_FILE, MAX_READS, READ_BYTES};
use crate::suffix::findings::{Findings, findings_of};
use crate::suffix::summary::{Summary, check_register};
use std::io::Read;

/// Checks all bytes of a reader, as `read` checks a slice. Only the register over the bytes, their count and the last 16 are kept, and no
/// memory is allocated. Each read fetches at most 16,384 bytes, into a buffer on the stack.
///
/// # Errors
///
/// TooLarge after byte 16,777,217 was read, without another read; Read at the first error of the reader, without a retry; otherwise the
/// fault that `read` returns for the bytes.
pub fn check<R: Read>(reader: R) -> Result<Summary, SuffixFault> {
    let mut findings = Findings::new();
    check_with(reader, &mut findings)
}

/// Checks like `check`, and writes the numbers that explain BadLength or BadCrc to `findings`. After TooShort, TooLarge and Read, these
/// numbers have no meaning.
///
/// # Errors
///
/// Those of `check`.
pub fn check_with<R: Read>(
    mut reader: R,
    findings: &mut Findings,
) -> Result<Summary, SuffixFault> {
    let mut crc = Crc::new();
    let mut count: u32 = 0;
    let mut window = [0u8; 16];
    let mut buffer = [0u8; READ_BYTES];
    for _turn in 0..MAX_READS {
        match reader.read(&mut buffer) {
            Ok(0) => {
                let register = crc.value();
                *findings = findings_of(&window, count, register);
                return check_register(&window, count, register);
            }
            Ok(taken) => {
                if taken > MAX_FILE - count as usize {
                    return Err(SuffixFault::TooLarge);
                }
                let more = &buffer[..taken];
                count += taken as u32;
                crc.update_long(more);
                slide(&mut window, more);
            }
            Err(_) => return Err(SuffixFault::Read),
        }
    }
    unreachable!()
}

// Appends `more` to a window of 16 bytes, and removes as many bytes from its front.
fn slide(window: &mut [u8; 16], more: &[u8]) {
    if more.len() >= 16 {
        let (_, last) = more.split_at(more.len() - 16);
        window.copy_from_slice(last);
    } else {
        let kept = 16 - more.len();
        window.copy_within(more.len().., 0);
        window[kept..].copy_from_slice(more);
    }
}
