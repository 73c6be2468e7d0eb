// Of crates/dfu_formats/src/memory/name.rt, whose contracts are taken away.

//! The name of a memory, at the front of its map's string.

use crate::dfuse::memory::fault::MapFault;
use crate::dfuse::memory::text::behind;

/// A name and the text after it.
#[derive(Debug, PartialEq, Eq)]
pub(crate) struct Named<'t> {
    pub name: &'t [u8],
    pub rest: &'t [u8],
}

/// Returns `bytes` without the spaces at their end.
fn trimmed(bytes: &[u8]) -> &[u8] {
    let mut end = 0;
    let mut count = 0;
    for byte in bytes {
        count += 1;
        if *byte != b' ' {
            end = count;
        }
    }
    let (kept, _) = bytes.split_at(end);
    kept
}

/// Returns the index of the first `/` in `text`, or None.
fn slash_in(text: &[u8]) -> Option<usize> {
    text.iter().position(|byte| *byte == b'/')
}

/// Splits the name between `@` and the first `/` off the front of `text`. Spaces at the end of the name are removed.
pub(crate) fn take_name(text: &[u8]) -> Result<Named<'_>, MapFault> {
    let Some(name) = behind(b'@', text) else {
        return Err(MapFault::NoMap);
    };
    let Some(end) = slash_in(name) else {
        return Err(MapFault::NoMap);
    };
    let (front, _) = name.split_at(end);
    let (_, rest) = name.split_at(end + 1);
    Ok(Named {
        name: trimmed(front),
        rest,
    })
}
