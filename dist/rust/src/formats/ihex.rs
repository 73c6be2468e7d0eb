// Of crates/dfu_formats/src/images/ihex.rt, whose contracts are taken away.

//! Intel HEX, records 00 to 05.
//!
//! Each line ends with a line feed, which is optional after the last one. A byte order mark and empty lines are ignored, and so are spaces,
//! tabs and carriage returns at either end of a line. Digits may be of either case. Only blank lines may follow the end record. The data of
//! a record may continue beyond the 65,536 bytes of a linear base (type 04, or none), but not beyond those of a segment (type 02). The
//! start address of a program is ignored.

use crate::formats::digits::{bytes_at, sum_of};
use crate::formats::element::Element;
use crate::formats::fault::ImageFault;
use crate::formats::limits::MAX_RECORD;
use crate::formats::lines::{State, TextFormat, elements_by_line};
use arrayvec::ArrayVec;
use crate::memory::{Global, Vec};

/// Returns the bytes of the record in `line`, which has number `at`, from the digits after `:`.
fn spelled(at: usize, line: &[u8]) -> Result<ArrayVec<u8, MAX_RECORD>, ImageFault> {
    match line {
        [b':', digits @ ..] => bytes_at(at, digits),
        _ => Err(ImageFault::NoMark(at)),
    }
}

/// A record: the offset of its data from the base, its type, and its data.
#[derive(Debug, PartialEq, Eq)]
struct Record<'t> {
    offset: u32,
    kind: u8,
    content: &'t [u8],
}

/// Splits `bytes`, the record on line `at`, into its fields, or returns the fault of its length or checksum.
fn split_record(at: usize, bytes: &[u8]) -> Result<Record<'_>, ImageFault> {
    if bytes.len() == 0 {
        return Err(ImageFault::BadLength(at));
    }
    let count = bytes[0] as usize;
    if bytes.len() != count + 5 {
        return Err(ImageFault::BadLength(at));
    }
    if sum_of(bytes) % 256 != 0 {
        return Err(ImageFault::BadChecksum(at));
    }
    let (_, behind) = bytes.split_at(4);
    let (content, _) = behind.split_at(count);
    Ok(Record {
        offset: 256 * bytes[1] as u32 + bytes[2] as u32,
        kind: bytes[3],
        content,
    })
}

/// Returns true if the base of `state` is a segment, and the data of record `said` ends beyond this segment.
fn leaves_segment(state: &State, said: &Record<'_>) -> bool {
    state.is_segment && said.offset as usize + said.content.len() > 65_536
}

/// Adds the data of record `said`, on line `at`, at its offset from the base of `state`.
fn add_data(alloc: Global, at: usize, state: State, said: &Record<'_>) -> Result<State, ImageFault> {
    let address = state.base + said.offset as u64;
    if leaves_segment(&state, said) || address + said.content.len() as u64 > 0x1_0000_0000 {
        return Err(ImageFault::PastSegment(at));
    }
    match state.gathering.add(alloc, at, address, said.content) {
        Ok(gathering) => Ok(State { gathering, ..state }),
        Err(fault) => Err(fault),
    }
}

/// Sets the base to the two bytes of record `said`, in units of `unit` addresses. Any other number of bytes is BadLength.
fn with_base(at: usize, unit: u64, state: State, said: &Record<'_>) -> Result<State, ImageFault> {
    match said.content {
        [high, low] => Ok(State {
            base: unit * (256 * *high as u64 + *low as u64),
            is_segment: unit == 16,
            ..state
        }),
        _ => Err(ImageFault::BadLength(at)),
    }
}

/// Applies record `said`, on line `at`, by its type. Returns the new state, or the fault.
fn do_record(alloc: Global, at: usize, state: State, said: &Record<'_>) -> Result<State, ImageFault> {
    match said.kind {
        0 => add_data(alloc, at, state, said),
        1 if said.content.len() == 0 => Ok(State {
            is_whole: true,
            is_ended: true,
            ..state
        }),
        2 => with_base(at, 16, state, said),
        4 => with_base(at, 65_536, state, said),
        3 | 5 if said.content.len() == 4 => Ok(state),
        1 | 3 | 5 => Err(ImageFault::BadLength(at)),
        _ => Err(ImageFault::BadType(at)),
    }
}

/// Intel HEX as a text format.
struct IntelHex;

impl TextFormat for IntelHex {
    fn step(alloc: Global, at: usize, state: State, line: &[u8]) -> Result<State, ImageFault> {
        let bytes = match spelled(at, line) {
            Ok(bytes) => bytes,
            Err(fault) => return Err(fault),
        };
        let said = match split_record(at, &bytes) {
            Ok(said) => said,
            Err(fault) => return Err(fault),
        };
        do_record(alloc, at, state, &said)
    }
}

/// Reads the elements of Intel HEX file `text`.
pub fn read(alloc: Global, text: &[u8]) -> Result<Vec<Element>, ImageFault> {
    elements_by_line::<IntelHex>(alloc, text)
}
