//! What a judge of DfuSe says about logs that were worked out by hand.

mod sessions;

use crate::{POWER, RESET, at};
use fustrelan::conformance::{
    Departure, EventKind, HABITS, Judge, Line, LogEvent, Response, Row, STANDARD, StandardState,
    read_line,
};
use fustrelan::dfuse_conformance::{DFUSE, DfuseJudge, first_departure, is_of_dfuse};
use sessions::{LOGS, SESSION};

/// The event of a line of a log, if it has one.
fn event_of(line: &[u8]) -> Option<LogEvent> {
    let read = read_line(0, line);
    assert!(read.is_some(), "a line that can't be read: {line:?}");
    match read {
        Some(Line::Came(event)) => Some(event),
        _ => None,
    }
}

/// A judge that took these lines, the sum of the line numbers, from 1, at which the device departed, and the last departure.
fn judged(lines: &[&[u8]]) -> (DfuseJudge, u32, Option<Departure>) {
    let mut judge = DfuseJudge::new();
    let (mut number, mut sum) = (0u32, 0u32);
    let mut last = None;
    for line in lines {
        number += 1;
        let departure = event_of(line).and_then(|event| judge.take(&event));
        if departure.is_some() {
            sum += number;
            last = departure;
        }
    }
    (judge, sum, last)
}

#[test]
fn logs_depart_where_they_should() {
    for (name, lines, departures) in &LOGS {
        let (_, sum, _) = judged(lines);
        assert_eq!(sum, *departures, "{name}");
    }
}

#[test]
fn a_session_is_kept_and_departs_from_dfu_at_the_leave() {
    let (judge, sum, _) = judged(&SESSION);
    assert_eq!(sum, 0);
    assert_eq!(
        judge.at,
        at(&[
            StandardState::Manifest,
            StandardState::ManifestWaitReset,
            StandardState::AppIdle,
            StandardState::Error,
        ])
    );
    let mut standard = Judge::new();
    let (mut number, mut sum) = (0u32, 0u32);
    for line in &SESSION {
        number += 1;
        if event_of(line).is_some_and(|event| standard.take(&event).is_some()) {
            sum += number;
        }
    }
    assert_eq!(sum, 33, "DNLOAD of no bytes in dfuIDLE");
}

/// How many of these rows say what was allowed to a DfuSe device.
fn allowed(departure: &Departure, rows: &[Row]) -> u32 {
    let mut count = 0u32;
    for row in rows {
        if departure.allows(row) && is_of_dfuse(row.when) {
            count += 1;
        }
    }
    count
}

#[test]
fn a_departure_says_what_was_allowed() {
    let (judge, sum, last) = judged(&[
        b"power",
        b"a103000000000600 - 000000000200",
        b"2101000000000500 4100000008 ack",
        b"a103000000000600 - 006400000400",
        b"a102020000000400 - 01020304",
    ]);
    assert_eq!(sum, 5);
    assert_eq!(judge.at, [true; 12]);
    assert!(last.is_some());
    if let Some(departure) = last {
        assert_eq!(
            departure.before,
            at(&[
                StandardState::DownloadSync,
                StandardState::DownloadBusy,
                StandardState::Error
            ])
        );
        let stalls = allowed(&departure, &STANDARD);
        assert_eq!(stalls, 3, "a stall, to dfuERROR, from each of the three");
        assert_eq!(allowed(&departure, &HABITS), 0);
        assert_eq!(allowed(&departure, &DFUSE), 0);
    }
}

/// GETSTATE as section 3 has it, answered with this state.
const fn told(state: u8) -> LogEvent {
    LogEvent {
        asked: EventKind::GetState,
        is_plain: true,
        length: 1,
        answer: Response::Bytes {
            count: 1,
            first: state,
            fifth: 0,
        },
    }
}

#[test]
fn the_first_departure_is_told() {
    assert!(first_departure(&[]).is_none());
    let kept = [POWER, told(2), told(2), RESET, told(0)];
    assert!(first_departure(&kept).is_none());
    let departs = [POWER, told(2), told(9), told(5)];
    let first = first_departure(&departs);
    assert!(first.is_some());
    if let Some((number, departure)) = first {
        assert_eq!(number, 2);
        assert_eq!(departure.before, at(&[StandardState::DfuIdle]));
        assert_eq!(departure.event, told(9));
    }
}
