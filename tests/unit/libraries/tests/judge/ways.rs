//! Each state and each request against the cells: what a judge keeps is what the cell allows.

use super::cells::{may, may_anyhow};
use super::{ACK, POWER, REQUESTS, RESET, asked, bytes, state, status};
use Said::{Ack, Part, Power, Reset, State, Status};
use fustrelan::conformance::{Judge, LogEvent, Response};

/// An exchange on the way to a state: a request of the list, and its answer.
#[derive(Clone, Copy)]
enum Said {
    Power,
    Reset,
    Ack(usize),
    Status(u8),
    State(u8),
    Part(usize),
}

/// How a device gets to each state from power-on.
#[rustfmt::skip]
static WAY: [&[Said]; 11] = [
    &[Power, State(0)],
    &[Power, State(0), Ack(0), State(1)],
    &[Power, State(0), Ack(0), Reset, State(2)],
    &[Power, State(0), Ack(0), Reset, State(2), Ack(1), State(3)],
    &[Power, State(0), Ack(0), Reset, State(2), Ack(1), Status(4)],
    &[Power, State(0), Ack(0), Reset, State(2), Ack(1), Status(5)],
    &[Power, State(0), Ack(0), Reset, State(2), Ack(1), Status(5), Ack(2), State(6)],
    &[Power, State(0), Ack(0), Reset, State(2), Ack(1), Status(5), Ack(2), Status(7)],
    &[Power, State(0), Ack(0), Reset, State(2), Ack(1), Status(5), Ack(2), Status(7), State(8)],
    &[Power, State(0), Ack(0), Reset, State(2), Part(8), State(9)],
    &[Power, State(10)],
];

/// The event of an exchange.
fn event(said: Said) -> Option<LogEvent> {
    match said {
        Said::Power => Some(POWER),
        Said::Reset => Some(RESET),
        Said::Ack(request) => ask(request, ACK),
        Said::Status(next) => ask(4, status(if next == 10 { 15 } else { 0 }, next)),
        Said::State(told) => ask(6, state(told)),
        Said::Part(count) => ask(3, bytes(&[7; 8][..if count < 8 { count } else { 8 }])),
    }
}

/// A request of the list, with its answer.
fn ask(request: usize, answer: Response) -> Option<LogEvent> {
    match REQUESTS.get(request) {
        Some(setup) => asked(setup, answer),
        None => None,
    }
}

/// The judge of a device that got to this state.
fn judge_at(place: u8) -> Judge {
    let mut judge = Judge::new();
    if let Some(way) = WAY.get(place as usize) {
        for said in way.iter() {
            if let Some(event) = event(*said) {
                assert!(judge.take(&event).is_none(), "on the way to state {place}");
            }
        }
    }
    judge
}

/// A judge accepts this answer to a request in this state, or refuses it, as is wanted.
fn expect(place: u8, request: usize, answer: Response, wanted: bool) {
    let mut judge = judge_at(place);
    let kept = match ask(request, answer) {
        Some(event) => judge.take(&event).is_none(),
        None => false,
    };
    assert_eq!(kept, wanted, "state {place}, request {request}, {answer:?}");
}

#[test]
fn each_cell_is_kept_as_it_says() {
    for place in 0u8..11 {
        for request in 0usize..9 {
            let empty = request == 3 && may_anyhow(place, request, b'P');
            let acknowledged = may_anyhow(place, request, b'A') || empty;
            expect(place, request, ACK, acknowledged);
            let stalled = may_anyhow(place, request, b'S');
            expect(place, request, Response::Stall, stalled);
            expect(place, request, Response::Nothing, true);
        }
    }
}

#[test]
fn each_status_is_kept_as_its_cell_says() {
    for place in 0u8..11 {
        for told in 0u8..11 {
            let code = if told == 10 { 15 } else { 0 };
            expect(place, 4, status(code, told), may(place, 4, b'T', told));
            // Another code, and a byte that is no code.
            expect(place, 4, status(15 - code, told), false);
            expect(place, 4, status(16, told), false);
            expect(place, 6, state(told), may(place, 6, b'Q', told));
        }
    }
}

#[test]
fn each_part_is_kept_as_its_cell_says() {
    for place in 0u8..11 {
        expect(place, 3, bytes(&[7; 8]), may_anyhow(place, 3, b'F'));
        expect(place, 3, bytes(&[7; 3]), may_anyhow(place, 3, b'P'));
        expect(place, 3, bytes(&[7; 9]), false);
    }
}
