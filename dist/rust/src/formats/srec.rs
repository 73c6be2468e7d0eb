// Of crates/dfu_formats/src/images/srec.rt, whose contracts are taken away.

//! S-records, types 0 to 3 and 5 to 9.
//!
//! Lines and digits follow the rules of Intel HEX. After the last data record, the file must have an end record of any type or a count,
//! because some tools write no end record. A count must equal the number of data records before it. Titles (type 0) are ignored.

use crate::formats::element::Element;
use crate::formats::fault::ImageFault;
use crate::formats::lines::{State, TextFormat, elements_by_line};
use crate::formats::srec_line::{Record, spelled, split_record};
use crate::memory::{Global, Vec};

/// Adds the data of record `said`, on line `at`, at its address.
fn add_data(alloc: Global, at: usize, state: State, said: &Record<'_>) -> Result<State, ImageFault> {
    if said.address + said.content.len() as u64 > 0x1_0000_0000 {
        return Err(ImageFault::PastSegment(at));
    }
    match state.gathering.add(alloc, at, said.address, said.content) {
        Ok(gathering) => Ok(State {
            gathering,
            count: state.count + 1,
            is_whole: false,
            ..state
        }),
        Err(fault) => Err(fault),
    }
}

/// Applies a count, which must be the number of data records so far, or an end record. Neither may have data.
fn count_or_end(at: usize, state: State, said: &Record<'_>) -> Result<State, ImageFault> {
    if said.content.len() != 0 {
        return Err(ImageFault::BadLength(at));
    }
    if said.kind >= 7 {
        return Ok(State {
            is_whole: true,
            is_ended: true,
            ..state
        });
    }
    if said.address != state.count as u64 {
        return Err(ImageFault::BadCount(at));
    }
    Ok(State {
        is_whole: true,
        ..state
    })
}

/// S-records as a text format.
struct SRecord;

impl TextFormat for SRecord {
    fn step(alloc: Global, at: usize, state: State, line: &[u8]) -> Result<State, ImageFault> {
        let typed = match spelled(at, line) {
            Ok(typed) => typed,
            Err(fault) => return Err(fault),
        };
        let said = match split_record(at, &typed) {
            Ok(said) => said,
            Err(fault) => return Err(fault),
        };
        match said.kind {
            0 => Ok(state),
            1..=3 => add_data(alloc, at, state, &said),
            4 => Err(ImageFault::BadType(at)),
            _ => count_or_end(at, state, &said),
        }
    }
}

/// Reads the elements of `text`, a file of S-records.
pub fn read(alloc: Global, text: &[u8]) -> Result<Vec<Element>, ImageFault> {
    elements_by_line::<SRecord>(alloc, text)
}
