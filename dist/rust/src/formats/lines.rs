// Of crates/dfu_formats/src/images/lines.rt, whose contracts are taken away.

//! The lines of a text, and formats that are read line by line.

use crate::formats::element::Element;
use crate::formats::fault::ImageFault;
use crate::formats::gathering::Gathering;
use crate::formats::text::{is_blank_byte, unblanked, unmarked};
use crate::memory::{Global, Vec};

/// Returns the index of the first line feed of `text`, or None if it has none.
fn feed_in(text: &[u8]) -> Option<usize> {
    text.iter().position(|byte| *byte == b'\n')
}

/// Returns the first line of `text`, and the text after its line feed. This text is None if there is no line feed.
fn take_line(text: &[u8]) -> (&[u8], Option<&[u8]>) {
    match feed_in(text) {
        Some(end) => {
            let (line, _) = text.split_at(end);
            let (_, rest) = text.split_at(end + 1);
            (line, Some(rest))
        }
        None => (text, None),
    }
}

/// Returns `line` without the blanks at its ends.
fn bare(line: &[u8]) -> &[u8] {
    let from_first = unblanked(line);
    let mut end = from_first.len();
    while end > 0 && is_blank_byte(from_first[end - 1]) {
        end -= 1;
    }
    let (kept, _) = from_first.split_at(end);
    kept
}

/// State of reading a text: the elements, the base of Intel HEX, true if this base is a segment of 65,536 bytes, the number of S-records
/// with data, true if the text may end here, and true if only blank lines may follow.
#[derive(Debug, PartialEq, Eq)]
pub(crate) struct State {
    pub gathering: Gathering,
    pub base: u64,
    pub is_segment: bool,
    pub count: usize,
    pub is_whole: bool,
    pub is_ended: bool,
}

/// A text format with one record on each line.
pub(crate) trait TextFormat {
    fn step(alloc: Global, at: usize, state: State, line: &[u8]) -> Result<State, ImageFault>;
}

/// Returns true if `line` is empty or consists of blanks.
fn is_blank_line(line: &[u8]) -> bool {
    line.iter().all(|byte| is_blank_byte(*byte))
}

/// Reads `line`, which has number `at` and is a record or blank. Returns the new state, or the fault.
fn line_read<F: TextFormat>(
    alloc: Global,
    at: usize,
    state: State,
    line: &[u8],
) -> Result<State, ImageFault> {
    if is_blank_line(line) {
        return Ok(state);
    }
    if state.is_ended {
        return Err(ImageFault::Trailing(at));
    }
    F::step(alloc, at, state, line)
}

/// Reads all lines of `text`. Returns the last state or the first fault. The fault is NoEnd if the text may not end after its last line.
fn lines_read<F: TextFormat>(alloc: Global, text: &[u8]) -> Result<State, ImageFault> {
    let mut state = State {
        gathering: Gathering::new(alloc),
        base: 0,
        is_segment: false,
        count: 0,
        is_whole: false,
        is_ended: false,
    };
    let mut at: usize = 1;
    let mut rest = text;
    loop {
        let (line, more) = take_line(rest);
        state = match line_read::<F>(alloc, at, state, bare(line)) {
            Ok(next) => next,
            Err(fault) => return Err(fault),
        };
        match more {
            Some(after) => rest = after,
            None if state.is_whole => return Ok(state),
            None => return Err(ImageFault::NoEnd),
        }
        at += 1;
    }
}

/// Reads the elements of `text`, line by line. A byte order mark at its front is skipped.
pub(crate) fn elements_by_line<F: TextFormat>(
    alloc: Global,
    text: &[u8],
) -> Result<Vec<Element>, ImageFault> {
    match lines_read::<F>(alloc, unmarked(text)) {
        Ok(state) => state.gathering.finish(),
        Err(fault) => Err(fault),
    }
}
