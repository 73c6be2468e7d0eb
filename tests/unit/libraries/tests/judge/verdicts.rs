//! Logs with the verdict on each: short ones, worked out by hand, and those of `captures`.

use super::captures::{
    DFU_FLASH, DFU_UTIL, DFU_UTIL_RESET, DFU_UTIL_UPLOAD, UBOOT_DFU_FLASH, UBOOT_DFU_UTIL,
};
use super::{ACK, asked, at};
use fustrelan::conformance::{Departure, Judge, Line, STANDARD, StandardState, Verdict, read_line};

/// A log: its name, its lines, how many departures are reported, and the verdict.
type Log = (&'static str, &'static [&'static [u8]], u32, Verdict);

/// Logs, and what is reported of each.
#[rustfmt::skip]
static LOGS: [Log; 11] = [
    ("nothing", &[], 0, Verdict::Kept),
    ("a bootloader", &[b"power", b"a103000000000600 - 000000000200", b"reset", b"a103000000000600 - 000000000200"],
        1, Verdict::KeptBy { readings: 1 }),
    ("a mute application", &[b"power", b"a103000000000600 - stall", b"21000a0000000000 - ack", b"reset",
        b"a103000000000600 - 000000000200"], 1, Verdict::KeptBy { readings: 2 }),
    ("a device that leaves of itself", &[b"power", b"a103000000000600 - 000000000000", b"21000a0000000000 - ack", b"reset",
        b"a103000000000600 - 000000000200", b"2101000000000400 a5a5a5a5 ack", b"a103000000000600 - 000000000500",
        b"2101010000000000 - ack", b"a103000000000600 - 000000000700", b"a103000000000600 - 000000000000"],
        1, Verdict::KeptBy { readings: 4 }),
    ("one that detaches at once, by bitWillDetach", &[b"power", b"a103000000000600 - 000000000000", b"21000a0000000000 - ack",
        b"2101000000000400 a5a5a5a5 ack", b"a103000000000600 - 000000000500", b"2101010000000000 - ack",
        b"a103000000000600 - 000000000700", b"a103000000000600 - 000000000700", b"2104000000000000 - stall"], 0, Verdict::Kept),
    ("an error without a code", &[b"power", b"a103000000000600 - 000000000a00"], 1, Verdict::KeptBy { readings: 32 }),
    ("two habits", &[b"power", b"a103000000000600 - 000000000200", b"21000a0000000000 - ack", b"a103000000000600 - 000000000000"],
        1, Verdict::KeptBy { readings: 17 }),
    ("what no habit explains", &[b"power", b"a103000000000600 - 000000000000", b"a103000000000600 - 000000000500"],
        1, Verdict::NotKept),
    ("two departures, behind each of which anything may be", &[b"power", b"a103000000000600 - 000000000000",
        b"a103000000000600 - 000000000500", b"a102000000000800 - stall", b"a103000000000600 - 0f0000000a00",
        b"a103000000000600 - 000000000200"], 2, Verdict::NotKept),
    ("a request that is not as section 3 has it, stalled with no change", &[b"power", b"a103000000000600 - 000000000000",
        b"21000a0000000000 - ack", b"reset", b"a103000000000600 - 000000000200", b"a103000000000700 - stall",
        b"a103000000000600 - 000000000200"], 0, Verdict::Kept),
    ("requests that are no events", &[b"a103000001000600 - ack", b"8006000100001200 - ack"], 0, Verdict::Kept),
];

/// A judge that took these lines, how many departures it reported, and the last of them.
fn judged(lines: &[&[u8]]) -> (Judge, u32, Option<Departure>) {
    let mut judge = Judge::new();
    let mut count = 0u32;
    let mut last = None;
    for line in lines {
        let read = read_line(0, line);
        assert!(read.is_some(), "a line that can't be read");
        let departure = match read {
            Some(Line::Came(event)) => judge.take(&event),
            _ => None,
        };
        if departure.is_some() {
            count += 1;
            last = departure;
        }
    }
    (judge, count, last)
}

/// The log has so many departures, and this verdict.
fn expect(name: &str, lines: &[&[u8]], departures: u32, verdict: Verdict) {
    let (judge, count, _) = judged(lines);
    assert_eq!((count, judge.verdict()), (departures, verdict), "{name}");
}

#[test]
fn logs_have_their_verdicts() {
    for (name, lines, departures, verdict) in &LOGS {
        expect(name, lines, *departures, *verdict);
    }
}

#[test]
fn captures_have_their_verdicts() {
    expect("dfu-flash", &DFU_FLASH, 0, Verdict::Kept);
    expect("dfu-util", &DFU_UTIL, 0, Verdict::Kept);
    expect("dfu-util -R", &DFU_UTIL_RESET, 0, Verdict::Kept);
    expect("dfu-util -U", &DFU_UTIL_UPLOAD, 0, Verdict::Kept);
    expect(
        "dfu-flash, to a device by U-Boot's rules",
        &UBOOT_DFU_FLASH,
        1,
        Verdict::KeptBy { readings: 1 },
    );
    expect(
        "dfu-util, to a device by U-Boot's rules",
        &UBOOT_DFU_UTIL,
        0,
        Verdict::Kept,
    );
}

/// After this log a device with these readings may be at these places.
fn may_be(lines: &[&[u8]], readings: u8, places: &[StandardState], what: &str) {
    let (judge, _, _) = judged(lines);
    assert_eq!(judge.places(readings), at(places), "{what}");
}

/// A device that stalls GETSTATUS in appIDLE.
static MUTE: [&[u8]; 3] = [
    b"power",
    b"a103000000000600 - 000000000000",
    b"a103000000000600 - stall",
];

#[test]
fn a_departure_says_where_the_device_was_and_what_was_allowed() {
    let (_, _, last) = judged(&MUTE);
    let mut allowed = 0u32;
    if let Some(departure) = last {
        assert_eq!(departure.before, at(&[StandardState::AppIdle]));
        for row in &STANDARD {
            if departure.allows(row) {
                assert_eq!(
                    (row.from, row.next),
                    (StandardState::AppIdle, StandardState::AppIdle)
                );
                allowed += 1;
            }
        }
    }
    assert_eq!(allowed, 1, "GETSTATUS is answered in appIDLE");
    may_be(&MUTE, 0, &[], "no device without habits is left");
    let idle = [StandardState::AppIdle];
    may_be(&MUTE, 2, &idle, "one that is mute is in appIDLE");
}

#[test]
fn a_lost_answer_leaves_both_ways_open() {
    may_be(
        &[
            b"power",
            b"a103000000000600 - 000000000000",
            b"21000a0000000000 - ack",
            b"reset",
            b"a103000000000600 - 000000000200",
            b"2101000000000400 a5a5a5a5 nothing",
        ],
        0,
        &[
            StandardState::DfuIdle,
            StandardState::DownloadSync,
            StandardState::Error,
        ],
        "both ways are open",
    );
}

#[test]
fn a_request_to_another_interface_is_no_event() {
    for setup in &[[0xa1u8, 3, 0, 0, 1, 0, 6, 0], [0x80, 6, 0, 1, 0, 0, 18, 0]] {
        assert!(asked(setup, ACK).is_none(), "{setup:?}");
    }
}
