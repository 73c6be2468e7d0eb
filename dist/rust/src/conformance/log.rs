// Of crates/dfu_conformance/src/log.rt, whose contracts are taken away.

//! The lines of a log.

use crate::conformance::line::{answer_of, body_of, field_end, setup_of};
use crate::conformance::{EventKind, LogEvent, Response};
use crate::wire::Setup;

/// Content of a line of a log.
#[derive(Clone, Copy, Debug, PartialEq, Eq)]
pub enum Line {
    /// An empty line, or a comment, which begins with `#`.
    Blank,
    /// A request that is not a class request, or is to another interface.
    Elsewhere,
    /// An event of the device.
    Came(LogEvent),
}

/// Reason why a line of a log is not valid.
#[derive(Clone, Copy, Debug, PartialEq, Eq)]
pub enum LineFault {
    /// The line has over 262,158 bytes. Only a comment may be longer.
    Long,
    /// The first field is not a setup.
    Setup,
    /// The second field is not a body.
    Body,
    /// The text after the second field is not an answer.
    Answer,
}

/// Answer of a reset or power event, which has no bytes.
const SILENT: Response = Response::Bytes {
    count: 0,
    first: 0,
    fifth: 0,
};

/// Returns the first field of `line`, and the bytes after the space that ends it. These are empty if there is no space.
fn parts(line: &[u8]) -> (&[u8], &[u8]) {
    let end = field_end(line);
    let rest = if end < line.len() {
        &line[end + 1..]
    } else {
        &[]
    };
    (&line[..end], rest)
}

/// Returns the content of `line`. The DFU interface of the device has number `interface`, which is the wIndex of its requests. A line is
/// one of these:
///
/// - `SETUP BODY ANSWER`, with one space between them: the sixteen hexadecimal digits of a setup; the bytes of its body in such digits, or
///   `-`; and `ack`, `stall`, `nothing`, or the bytes of the answer in such digits;
/// - `reset` and `power`;
/// - an empty line, or one that begins with `#`.
///
/// Returns None for any other line. A body and an answer may have 65,535 bytes each.
pub fn read_line(interface: u8, line: &[u8]) -> Option<Line> {
    if begins_blank(line) {
        return Some(Line::Blank);
    }
    if line == b"reset".as_slice() {
        return Some(Line::Came(mark(EventKind::Reset)));
    }
    if line == b"power".as_slice() {
        return Some(Line::Came(mark(EventKind::Power)));
    }
    let (setup, rest) = parts(line);
    let (body, answer) = parts(rest);
    request_of(interface, setup_of(setup), body_of(body), answer_of(answer))
}

/// Returns the first wrong field of a line for which `read_line` returns None.
pub fn why_unread(line: &[u8]) -> LineFault {
    let (setup, rest) = parts(line);
    let (body, _) = parts(rest);
    if setup_of(setup).is_none() {
        return LineFault::Setup;
    }
    if body_of(body).is_none() {
        return LineFault::Body;
    }
    LineFault::Answer
}

/// Returns true if `line` is empty or begins with `#`.
fn begins_blank(line: &[u8]) -> bool {
    match line {
        [] => true,
        [first, ..] => *first == b'#',
    }
}

/// Returns the event of kind `asked`, for a `reset` or `power` line.
fn mark(asked: EventKind) -> LogEvent {
    LogEvent {
        asked,
        is_plain: true,
        length: 0,
        answer: SILENT,
    }
}

/// Returns the content of a request's line with these three fields, for a device at `interface`. Returns None if a field is None.
fn request_of(
    interface: u8,
    setup: Option<Setup>,
    body: Option<usize>,
    answer: Option<Response>,
) -> Option<Line> {
    match (setup, body, answer) {
        (Some(setup), Some(body), Some(answer)) => {
            if setup.index != interface as u16 {
                return Some(Line::Elsewhere);
            }
            let for_us = Setup { index: 0, ..setup };
            Some(line_of(&for_us, body, answer))
        }
        _ => None,
    }
}

/// Returns the content of the line of a request with `setup`, a body of `body` bytes and `answer`. It is Elsewhere unless the request is a
/// class request to interface 0.
fn line_of(setup: &Setup, body: usize, answer: Response) -> Line {
    match LogEvent::exchange(setup, body, answer) {
        Some(event) => Line::Came(event),
        None => Line::Elsewhere,
    }
}
