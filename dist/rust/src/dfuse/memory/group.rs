// Of crates/dfu_formats/src/memory/group.rt, whose contracts are taken away.

//! A range in the string of a map: a count, a size with its unit, and a letter.

use crate::dfuse::memory::digits::take_number;
use crate::dfuse::memory::fault::MapFault;
use crate::dfuse::memory::limits::ADDRESSES;
use crate::dfuse::memory::pages::{Access, Pages};
use crate::dfuse::memory::text::{Number, behind, front};

/// Access to pages, and the text after its letter.
#[derive(Debug, PartialEq, Eq)]
struct AccessAndRest<'t> {
    access: Access,
    rest: &'t [u8],
}

/// A range and the text after it.
#[derive(Debug, PartialEq, Eq)]
pub(crate) struct Group<'t> {
    pub pages: Pages,
    pub rest: &'t [u8],
}

/// Returns the number of bytes of unit `byte`, or 0 for any byte that is no unit.
fn unit_of(byte: u8) -> u64 {
    match byte {
        b'K' => 1024,
        b'M' => 1_048_576,
        b'B' | b' ' => 1,
        _ => 0,
    }
}

/// Splits the unit off the front of `text`. Returns `value` times the number of bytes of the unit, or `value` itself if there is no unit.
fn take_unit(value: u64, text: &[u8]) -> Number<'_> {
    match front(text) {
        Some((byte, rest)) if unit_of(byte) != 0 => Number {
            value: unit_of(byte) * value,
            rest,
        },
        _ => Number { value, rest: text },
    }
}

/// Splits a count of pages, and the `*` after it, off the front of `text`.
fn take_count(text: &[u8]) -> Result<Number<'_>, MapFault> {
    match take_number(10, 5, text) {
        Some(number) if number.value != 0 => match behind(b'*', number.rest) {
            Some(rest) => Ok(Number {
                value: number.value,
                rest,
            }),
            None => Err(MapFault::BadCount),
        },
        _ => Err(MapFault::BadCount),
    }
}

/// Splits the size of a page, with its unit, off the front of `text`.
fn take_size(text: &[u8]) -> Result<Number<'_>, MapFault> {
    match take_number(10, 5, text) {
        Some(number) if number.value != 0 => Ok(take_unit(number.value, number.rest)),
        _ => Err(MapFault::BadSize),
    }
}

/// Returns the access for a letter, `a` to `g` as 1 to 7. Bit 0 means readable, bit 1 erasable, and bit 2 writable.
fn access_of(letter: u8) -> Access {
    let bits = letter - b'a' + 1;
    Access {
        is_readable: bits % 2 == 1,
        is_erasable: bits / 2 % 2 == 1,
        is_writable: bits / 4 == 1,
    }
}

/// Splits the letter for the access to the pages off the front of `text`.
fn take_access(text: &[u8]) -> Result<AccessAndRest<'_>, MapFault> {
    match front(text) {
        Some((letter, rest)) if letter >= b'a' && letter <= b'g' => Ok(AccessAndRest {
            access: access_of(letter),
            rest,
        }),
        _ => Err(MapFault::BadType),
    }
}

/// Splits a range that begins at `start` off the front of `text`, or returns its first fault.
pub(crate) fn take_group(start: u64, text: &[u8]) -> Result<Group<'_>, MapFault> {
    let count = match take_count(text) {
        Ok(count) => count,
        Err(fault) => return Err(fault),
    };
    let size = match take_size(count.rest) {
        Ok(size) => size,
        Err(fault) => return Err(fault),
    };
    let allowed = match take_access(size.rest) {
        Ok(allowed) => allowed,
        Err(fault) => return Err(fault),
    };
    if start + count.value * size.value > ADDRESSES {
        return Err(MapFault::PastTheEnd);
    }
    Ok(Group {
        pages: Pages {
            start: start as u32,
            size: size.value,
            count: count.value as u32,
            access: allowed.access,
        },
        rest: allowed.rest,
    })
}
