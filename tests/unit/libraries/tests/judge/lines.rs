//! Lines of a log, by hand.

use super::{ACK, POWER, RESET};
use fustrelan::conformance::{EventKind, Line, LogEvent, Response, read_line};

/// Lines that no log has.
#[rustfmt::skip]
static NO_LINES: [&[u8]; 17] = [
    b" ", b"reset ", b"Reset", b"x a103000000000600 - ack", b"a103000000000600", b"a103000000000600 -", b"a103000000000600 - ",
    b"a1030000000006 - ack", b"a1030000000006000 - ack", b"a10300000000060g - ack", b"a103000000000600 0 ack", b"a103000000000600  ack",
    b"a103000000000600 - 000", b"a103000000000600 - Ack", b"a103000000000600 - ack ", b"a103000000000600\t-\tack",
    b"A103000000000600 - 0F010203 04",
];

/// A status of six bytes.
const TOLD: Response = Response::Bytes {
    count: 6,
    first: 15,
    fifth: 4,
};

/// Lines that say nothing about the interface.
#[rustfmt::skip]
static OTHERS: [(u8, &[u8], Line); 7] = [
    (0, b"", Line::Blank),
    (0, b"# power", Line::Blank),
    (0, b"reset", Line::Came(RESET)),
    (0, b"power", Line::Came(POWER)),
    (0, b"a103000001000600 - stall", Line::Elsewhere),
    (1, b"a103000000000600 - stall", Line::Elsewhere),
    (1, b"8006000100001200 - ack", Line::Elsewhere),
];

/// A line of a request, for an interface: what is asked, whether it is as section 3 has it, wLength, and the answer.
type Row = (u8, &'static [u8], EventKind, bool, u16, Response);

#[rustfmt::skip]
static REQUESTS: [Row; 5] = [
    (0, b"A103000000000600 - 0F010203040A", EventKind::GetStatus, true, 6, TOLD),
    (0, b"2101000000000400 a5a5a5a5 ack", EventKind::Block, true, 4, ACK),
    (0, b"2101000000000400 a5a5a5 stall", EventKind::Block, false, 4, Response::Stall),
    (0, b"2101010000000000 - nothing", EventKind::Close, true, 0, Response::Nothing),
    (1, b"a103000001000600 - stall", EventKind::GetStatus, true, 6, Response::Stall),
];

/// The line is read as the event that is wanted.
fn expect(interface: u8, line: &[u8], wanted: Option<Line>) {
    assert_eq!(read_line(interface, line), wanted, "{line:?}");
}

#[test]
fn lines_say_what_they_say() {
    for (interface, line, wanted) in &OTHERS {
        expect(*interface, line, Some(*wanted));
    }
    for (interface, line, asked, is_plain, length, answer) in &REQUESTS {
        let event = LogEvent {
            asked: *asked,
            is_plain: *is_plain,
            length: *length,
            answer: *answer,
        };
        expect(*interface, line, Some(Line::Came(event)));
    }
    for line in &NO_LINES {
        expect(0, line, None);
    }
}
