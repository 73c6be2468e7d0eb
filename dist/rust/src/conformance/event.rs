// Of crates/dfu_conformance/src/event.rt, whose contracts are taken away.

//! The events of a device, and the logged answers.

use crate::conformance::{EventKind, Gives, Row, StandardState};
use crate::wire::{Request, Setup};

/// Answer of a device to a request, as the log contains it.
#[derive(Clone, Copy, Debug, PartialEq, Eq)]
pub enum Response {
    /// The device stalled the request.
    Stall,
    /// The log has no answer, so the request may not have reached the device.
    Nothing,
    /// The device sent bytes. For an acknowledgement, the count is 0.
    Bytes {
        /// Number of bytes in the answer.
        count: u32,
        /// First byte of the answer, or 0 if the answer is empty.
        first: u8,
        /// Fifth byte of the answer, or 0 if the answer is shorter.
        fifth: u8,
    },
}

/// An event of a device, and the logged answer. A bus reset and a return of power have no answer.
#[derive(Clone, Copy, Debug, PartialEq, Eq)]
pub struct LogEvent {
    /// Kind of the event.
    pub asked: EventKind,
    /// True if the request is well-formed: its wValue, its wLength and the size of its body are those of section 3. Also true for an event
    /// without a request.
    pub is_plain: bool,
    /// wLength of the request, which is the number of bytes in its body or the largest number that the host accepts. 0 for an event without
    /// a request.
    pub length: u16,
    /// The logged answer.
    pub answer: Response,
}

impl LogEvent {
    /// Returns the event of a request with `setup`, a body of `body` bytes, and `answer`. Returns None if the request is not a class
    /// request to interface 0.
    pub fn exchange(setup: &Setup, body: usize, answer: Response) -> Option<LogEvent> {
        let request = setup.request();
        match request {
            Request::NotDfu => None,
            request => Some(LogEvent {
                asked: event_kind_of(&request),
                is_plain: is_told(setup, &request, body),
                length: setup.length,
                answer,
            }),
        }
    }
}

/// Returns the kind of the request's event in the tables. A DNLOAD without bytes has a kind of its own, `Close`.
fn event_kind_of(request: &Request) -> EventKind {
    match *request {
        Request::Detach { .. } => EventKind::Detach,
        Request::Dnload { length: 0, .. } => EventKind::Close,
        Request::Dnload { .. } => EventKind::Block,
        Request::Upload { .. } => EventKind::Upload,
        Request::GetStatus { .. } => EventKind::GetStatus,
        Request::ClrStatus => EventKind::ClrStatus,
        Request::GetState { .. } => EventKind::GetState,
        Request::Abort => EventKind::Abort,
        Request::OtherClass | Request::NotDfu => EventKind::Other,
    }
}

/// Returns true if a request with `setup` and a body of `body` bytes is well-formed by section 3.
fn is_told(setup: &Setup, request: &Request, body: usize) -> bool {
    let Setup {
        kind,
        value,
        length,
        ..
    } = *setup;
    let wanted = if kind == 0x21 { length as usize } else { 0 };
    body == wanted && has_standard_numbers(request, value)
}

/// Returns true if wLength of `request` and `value`, its wValue, are those of section 3. DETACH, DNLOAD and requests other than the seven
/// of DFU may have any values.
fn has_standard_numbers(request: &Request, value: u16) -> bool {
    match *request {
        Request::Upload { length, .. } => length != 0,
        Request::GetStatus { length } => length == 6 && value == 0,
        Request::GetState { length } => length == 1 && value == 0,
        Request::ClrStatus | Request::Abort => value == 0,
        _ => true,
    }
}

/// Returns true if `row` fits `event`: it is for this kind of event, and allows the logged answer.
pub fn row_fits_event(row: &Row, event: &LogEvent) -> bool {
    is_asked(row.asked, event) && is_shown(row, event)
}

/// Returns true if a row for `asked` applies to `event`. A device may also treat a request that is not well-formed as `Other`.
pub(crate) fn is_asked(asked: EventKind, event: &LogEvent) -> bool {
    asked.number() == event.asked.number()
        || !event.is_plain && asked.number() == EventKind::Other.number()
}

/// Returns true if `row` allows the logged answer of `event`.
fn is_shown(row: &Row, event: &LogEvent) -> bool {
    let length = event.length as u32;
    match event.answer {
        Response::Nothing => true,
        Response::Stall => match row.gives {
            Gives::Stall | Gives::Silent => true,
            _ => false,
        },
        Response::Bytes {
            count,
            first,
            fifth,
        } => match row.gives {
            Gives::Silent => true,
            Gives::Stall => false,
            Gives::Ack => count == 0,
            Gives::Full => count == length,
            Gives::Short => count < length || count == 0 && length == 0,
            Gives::State => count == length.min(1)
                && (count == 0 || first as usize == state_of(row.from)),
            Gives::Status => {
                count == length.min(6)
                    && (count == 0 || may_place_report_code(row.next, first))
                    && (count < 5 || fifth as usize == state_of(row.next))
            }
            Gives::NoCode => count == length.min(6)
                && (count == 0 || first == 0)
                && (count < 5 || fifth as usize == state_of(row.next)),
        },
    }
}

/// Returns the bState (section 6.1.2) that a device in state `place` reports.
fn state_of(place: StandardState) -> usize {
    match place {
        StandardState::Fresh => 2,
        place => place.number(),
    }
}

/// Returns true if a device that enters state `place` may report the status code `code`: OK outside dfuERROR, and 1 to 15 in dfuERROR.
fn may_place_report_code(place: StandardState, code: u8) -> bool {
    match place {
        StandardState::Error => 0 < code && code < 16,
        _ => code == 0,
    }
}

/// Returns true if a device may stay in its state at `event` without a row: if the log has no answer, or if the device stalled a request
/// that is not well-formed.
pub(crate) fn may_stay(event: &LogEvent) -> bool {
    match event.answer {
        Response::Nothing => true,
        Response::Stall => !event.is_plain,
        Response::Bytes { .. } => false,
    }
}
