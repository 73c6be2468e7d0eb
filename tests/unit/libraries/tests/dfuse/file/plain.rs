//! A second reader of DfuSe files, by places counted from the front. It finds the fault of a file, or what it adds up to.

use fustrelan::dfuse::file::FileFault;
use fustrelan::suffix::Crc;

/// How many elements a file has, and the sum of their addresses and bytes.
pub type Sums = (u64, u64);

/// The number in so many bytes from a place on, the low one first; bytes that aren't there count as 0.
fn number(bytes: &[u8], at: u64, many: u64) -> u64 {
    (at..at + many).rev().fold(0, |value, place| {
        let byte = bytes.get(place as usize).copied().unwrap_or(0);
        value * 256 + u64::from(byte)
    })
}

/// Whether a file has these bytes at a place.
fn stands(bytes: &[u8], at: u64, wanted: &[u8]) -> bool {
    let at = at as usize;
    bytes.get(at..at + wanted.len()) == Some(wanted)
}

/// Where the bytes before the suffix end.
fn payload_end(bytes: &[u8]) -> Result<u64, FileFault> {
    let end = bytes.len() as u64;
    if end > 16_777_216 {
        return Err(FileFault::TooLarge);
    }
    if end < 16 {
        return Err(FileFault::TooShort);
    }
    let suffix = number(bytes, end - 5, 1);
    let mut crc = Crc::new();
    crc.update(&bytes[..bytes.len() - 4]);
    if !stands(bytes, end - 8, b"UFD") {
        Err(FileFault::NoSignature)
    } else if suffix < 16 || suffix > end {
        Err(FileFault::BadLength)
    } else if number(bytes, end - 10, 2) != 0x011a {
        Err(FileFault::NotDfuSe)
    } else if number(bytes, end - 4, 4) != u64::from(crc.value()) {
        Err(FileFault::BadCrc)
    } else {
        Ok(end - suffix)
    }
}

/// Where the targets begin.
fn prefixed(bytes: &[u8], end: u64) -> Result<u64, FileFault> {
    let size = number(bytes, 6, 4);
    if end < 11 || !stands(bytes, 0, b"DfuSe") {
        Err(FileFault::NoPrefix)
    } else if number(bytes, 5, 1) != 1 {
        Err(FileFault::BadVersion)
    } else if size != end && size != bytes.len() as u64 {
        Err(FileFault::BadImageSize)
    } else if number(bytes, 10, 1) == 0 {
        Err(FileFault::NoTargets)
    } else {
        Ok(11)
    }
}

/// Where an element ends that begins here, in a target that ends there.
fn element(bytes: &[u8], at: u64, end: u64) -> Result<u64, FileFault> {
    let room = end - at;
    let address = number(bytes, at, 4);
    let size = number(bytes, at + 4, 4);
    if room < 8 || room - 8 < size {
        Err(FileFault::ElementPastTheTarget)
    } else if size == 0 {
        Err(FileFault::EmptyElement)
    } else if address + size > 0x1_0000_0000 {
        Err(FileFault::AddressPastTheEnd)
    } else {
        Ok(at + 8 + size)
    }
}

/// Where a target ends that begins here, with the sums of its elements added to others.
fn target(bytes: &[u8], at: u64, end: u64, sums: Sums) -> Result<(u64, Sums), FileFault> {
    let first = at + 274;
    if end < first || !stands(bytes, at, b"Target") {
        return Err(FileFault::NoTarget);
    }
    let size = number(bytes, at + 266, 4);
    let count = number(bytes, at + 270, 4);
    let last = first + size;
    if last > end {
        return Err(FileFault::BadTargetSize);
    }
    let (mut many, mut total) = sums;
    let mut place = first;
    for _ in 0..count {
        let next = element(bytes, place, last)?;
        many += 1;
        total += number(bytes, place, 4);
        for at in place + 8..next {
            total += number(bytes, at, 1);
        }
        place = next;
    }
    if place != last {
        return Err(FileFault::BadTargetSize);
    }
    Ok((last, (many, total)))
}

/// What a file adds up to.
pub fn sums(bytes: &[u8]) -> Result<Sums, FileFault> {
    let end = payload_end(bytes)?;
    let mut place = prefixed(bytes, end)?;
    let mut sums = (0, 0);
    for _ in 0..number(bytes, 10, 1) {
        (place, sums) = target(bytes, place, end, sums)?;
    }
    if place == end {
        Ok(sums)
    } else {
        Err(FileFault::Trailing)
    }
}
