// Of crates/dfu_conformance/src/held.rt, whose contracts are taken away.

//! Candidates: for each state, the devices that may be in it, as bits of words.

use crate::conformance::drifts::DRIFTS;
use crate::conformance::event::{may_stay, row_fits_event};
use crate::conformance::habits::HABITS;
use crate::conformance::marks::MARKS;
use crate::conformance::standard::STANDARD;
use crate::conformance::{Drift, LogEvent, Reading, Row, StandardState, When};

/// A set of devices. Bit r of word a is 1 if the set contains the device with bmAttributes a and the set of habits (readings) r.
pub(crate) type Devices = [u64; 16];

/// Returns the sets of habits, as bits, with which a row with `when` applies to a device with bmAttributes `attributes`, 0 to 15.
fn word(when: When, attributes: usize) -> u64 {
    match when {
        When::Always => all_if(true),
        When::CanDownload => all_if(attributes % 2 == 1),
        When::CanUpload => all_if(attributes / 2 % 2 == 1),
        When::Tolerant => all_if(attributes / 4 % 2 == 1),
        When::NotTolerant => all_if(attributes / 4 % 2 == 0),
        When::WillDetach => all_if(attributes / 8 % 2 == 1),
        When::By(reading) => readings_with(reading),
    }
}

/// Returns the word of all 64 sets of habits if `yes`, and the word of no sets otherwise.
fn all_if(yes: bool) -> u64 {
    if yes { u64::MAX } else { 0 }
}

/// For each habit, by its index, the sets of habits that contain it.
const SETS_WITH: [u64; 6] = [
    0xaaaa_aaaa_aaaa_aaaa,
    0xcccc_cccc_cccc_cccc,
    0xf0f0_f0f0_f0f0_f0f0,
    0xff00_ff00_ff00_ff00,
    0xffff_0000_ffff_0000,
    0xffff_ffff_0000_0000,
];

/// Returns the index of `reading` in the list of all six habits, 0 to 5.
fn number_of(reading: Reading) -> usize {
    reading as usize
}

/// Returns the sets of habits that contain `reading`.
fn readings_with(reading: Reading) -> u64 {
    SETS_WITH[number_of(reading)]
}

/// Returns the devices of `to`, and those devices of `from` to which a row with `when` applies.
fn join(to: &Devices, from: &Devices, when: When) -> Devices {
    let mut after = *to;
    for a in 0..16 {
        after[a] |= from[a] & word(when, a);
    }
    after
}

/// Returns the sets of habits of all devices in `devices`, for any bmAttributes.
fn readings_of(devices: &Devices) -> u64 {
    let mut all = 0;
    for a in 0..16 {
        all |= devices[a];
    }
    all
}

/// Returns true if `devices` contains no device.
fn is_empty(devices: &Devices) -> bool {
    readings_of(devices) == 0
}

/// Candidates: for each state, by its index, the devices that may be in it.
pub(crate) type Places = [Devices; 12];

/// For each state, by its index, true if the state may have candidates. Rows from any other state are skipped, because they add no
/// candidates.
type Taken = [bool; 12];

/// Returns the states for which `places` contains a device.
fn taken(places: &Places) -> Taken {
    let mut at = [true; 12];
    for n in 0..12 {
        at[n] = !is_empty(&places[n]);
    }
    at
}

/// Adds the candidates in state `from` of `before` to state `to` of `after`, if a row with `when` applies to them.
fn lead(before: &Places, from: StandardState, when: When, after: &mut Places, to: StandardState) {
    let to = to.number();
    after[to] = join(&after[to], &before[from.number()], when);
}

/// Adds to `after`, in the state to which `row` leads, the candidates of `before` to which `row` applies at `event`.
fn go(row: &Row, before: &Places, at: &Taken, event: &LogEvent, after: &mut Places) {
    if at[row.from.number()] && row_fits_event(row, event) {
        lead(before, row.from, row.when, after, row.next);
    }
}

/// Adds to `after`, in the states to which `rows` lead, the candidates of `before` to which these rows apply at `event`.
fn pass(rows: &[Row], before: &Places, at: &Taken, event: &LogEvent, after: &mut Places) {
    for row in rows {
        go(row, before, at, event, after);
    }
}

/// Adds to `after` the candidates that `pass` adds for `MARKS`. A request is skipped, because `MARKS` has no row for it.
fn pass_marks(before: &Places, at: &Taken, event: &LogEvent, after: &mut Places) {
    if event.asked.number() > 8 {
        pass(&MARKS, before, at, event, after);
    }
}

/// Adds to `after`, in the state to which the move `one` leads, the candidates of `before` to which this move applies.
fn slide(one: &Drift, before: &Places, at: &Taken, after: &mut Places) {
    if at[one.from.number()] {
        lead(before, one.from, one.when, after, one.next);
    }
}

/// Returns the candidates of `before`, each in its states and also in the states that it may enter by one of `moves`.
fn drift(moves: &[Drift], before: &Places) -> Places {
    let mut after = *before;
    let at = taken(before);
    for one in moves {
        slide(one, before, &at, &mut after);
    }
    after
}

/// Returns the candidates of `before` that may stay in their states at `event`: all of them, or none.
fn rest(before: &Places, event: &LogEvent) -> Places {
    if may_stay(event) {
        *before
    } else {
        [[0; 16]; 12]
    }
}

/// Returns the candidates after `event`, if those before it are `before`.
pub(crate) fn step(before: &Places, event: &LogEvent) -> Places {
    let at = taken(before);
    let mut after = rest(before, event);
    pass(&STANDARD, before, &at, event, &mut after);
    pass_marks(before, &at, event, &mut after);
    pass(&HABITS, before, &at, event, &mut after);
    drift(&DRIFTS, &after)
}

/// Returns true if bit `bit` of `word` is 1.
fn has_bit(word: u64, bit: u8) -> bool {
    word >> bit & 1 == 1
}

/// Returns true if `devices` contains a device with the set of habits `readings`, for some bmAttributes.
fn is_held(devices: &Devices, readings: u8) -> bool {
    has_bit(readings_of(devices), readings)
}

/// Returns, for each state, true if a device with the set of habits `readings` is a candidate in it.
pub(crate) fn places_of(places: &Places, readings: u8) -> [bool; 12] {
    let mut at = [false; 12];
    for n in 0..12 {
        at[n] = is_held(&places[n], readings);
    }
    at
}

/// Returns true if a device with the set of habits `readings` is a candidate in some state.
pub(crate) fn is_any_held(places: &Places, readings: u8) -> bool {
    let mut is_some = false;
    for n in 0..12 {
        is_some = is_some || is_held(&places[n], readings);
    }
    is_some
}

/// Returns the smallest set of habits with a candidate, among those with a number below `sets`, or None. It has the fewest habits and, of
/// the sets with equally many, the lowest number.
pub(crate) fn least_held(places: &Places, sets: u8) -> Option<u8> {
    let mut least = None;
    for readings in 0..sets {
        least = smaller_set(is_any_held(places, readings), readings, least);
    }
    least
}

/// Returns the smaller of two sets, which is `readings` if `held` is true and `least` is None or has more habits. Otherwise returns
/// `least`.
fn smaller_set(held: bool, readings: u8, least: Option<u8>) -> Option<u8> {
    if !held {
        return least;
    }
    match least {
        Some(than) if than.count_ones() <= readings.count_ones() => least,
        _ => Some(readings),
    }
}
