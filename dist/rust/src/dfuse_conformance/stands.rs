// Of crates/dfu_conformance/src/dfuse/stands.rt, whose contracts are taken away.

//! The states in which a DfuSe device may be.

use crate::dfuse_conformance::rows::DFUSE;
use crate::dfuse_conformance::speaks::{is_of_dfuse, may_dfuse_stay};
use crate::conformance::{
    DRIFTS, Drift, HABITS, LogEvent, MARKS, Row, STANDARD, StandardState, When, row_fits_event,
};

/// For each state, by its index, true if a DfuSe device may be in it.
pub(crate) type Places = [bool; 12];

/// Adds state `to` to `after`, if `before` contains state `from`, and a row or move with `when` applies to a DfuSe device.
fn lead(before: &Places, from: StandardState, when: When, after: &mut Places, to: StandardState) {
    let to = to.number();
    after[to] = after[to] || before[from.number()] && is_of_dfuse(when);
}

/// Adds to `after` the state to which `row` leads at `event` from a state of `before`.
fn go(row: &Row, before: &Places, event: &LogEvent, after: &mut Places) {
    if row_fits_event(row, event) {
        lead(before, row.from, row.when, after, row.next);
    }
}

/// Adds to `after` the states to which `rows` lead at `event` from the states of `before`.
fn pass(rows: &[Row], before: &Places, event: &LogEvent, after: &mut Places) {
    for row in rows {
        go(row, before, event, after);
    }
}

/// Returns the states of `before`, and those to which `moves` lead from them.
fn drift(moves: &[Drift], before: &Places) -> Places {
    let mut after = *before;
    for one in moves {
        lead(before, one.from, one.when, &mut after, one.next);
    }
    after
}

/// Returns the states of `before` in which a DfuSe device may have stayed at `event`: all of them, or none.
fn rest(before: &Places, event: &LogEvent) -> Places {
    if may_dfuse_stay(event) {
        *before
    } else {
        [false; 12]
    }
}

/// Returns the states in which a DfuSe device may be after `event`, if it may be in those of `before` before it.
pub(crate) fn step(before: &Places, event: &LogEvent) -> Places {
    let mut after = rest(before, event);
    pass(&STANDARD, before, event, &mut after);
    pass(&MARKS, before, event, &mut after);
    pass(&HABITS, before, event, &mut after);
    pass(&DFUSE, before, event, &mut after);
    drift(&DRIFTS, &after)
}

/// Returns true if `at` contains at least one state.
pub(crate) fn is_anywhere(at: &Places) -> bool {
    let mut is_some = false;
    for n in 0..12 {
        is_some = is_some || at[n];
    }
    is_some
}
