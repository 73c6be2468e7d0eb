// Of crates/dfu_home/src/outcome.rt, whose contracts are taken away.

//! Outcome of an operation that `next` returned.

use crate::home::bytes::are_same;
use crate::home::{Due, Progress};
use crate::boot::install::are_blank;

// Returns true if an operation succeeded, according to the flash that is read back: its range is not empty, lies in the flash, and has the
// right bytes.
fn worked(flash: &[u8], sector: u32, due: Due, bytes: &[u8; 256]) -> bool {
    match due {
        Due::Erase { at } => {
            sector > 0
                && at as u64 + sector as u64 <= flash.len() as u64
                && are_blank(flash, at, at + sector)
        }
        Due::Program { at, len } => {
            if len == 0 || len > 256 || at as u64 + len as u64 > flash.len() as u64 {
                return false;
            }
            let (from, len) = (at as usize, len as usize);
            are_same(&flash[from..from + len], &bytes[..len])
        }
        _ => false,
    }
}

/// Returns the progress after an operation was carried out or `failed`. The program must pass the progress to `next`.
///
/// `due` is the operation that `next` returned, and `bytes` its buffer. The call reads the flash back: after an erase, the whole sector
/// must read FFh; after a program, the range must contain the programmed bytes. If not, or if the operation failed, `last` is None. The
/// count increases by 1, even if the operation failed, up to 4,294,967,295.
pub fn took(
    flash: &[u8],
    sector: u32,
    due: Due,
    bytes: &[u8; 256],
    failed: bool,
    progress: Progress,
) -> Progress {
    let worked = !failed && flash.len() <= 0xffff_ffff && worked(flash, sector, due, bytes);
    Progress {
        last: match due {
            Due::Erase { at } if worked => Some(at),
            Due::Program { at, len: _ } if worked => Some(at),
            _ => None,
        },
        count: progress.count.saturating_add(1),
    }
}
