//! `dfu run` on the machine in memory: how often it prints, and what is printed if printing fails.

use crate::host::Host;
use crate::machine::{Kind, Machine};
use dfu::command::run_words;
use unit_program::Outcome;
use unit_program::words::words_of;

/// What a pass prints if there is no session.
const PASS: &[u8] = b"refused NoHost\n";

/// A script of passes, and its result.
struct Run {
    script: &'static [u8],
    words: &'static str,
    is_typed: bool,
    /// How many calls of printing succeed.
    room: usize,
    status: u8,
    /// How many passes are printed, and what is printed after them.
    passes: usize,
    last: &'static [u8],
    prints: usize,
}

/// 2,500 passes are 37,500 bytes, and a buffer has room for 1,092 of them.
const LONG: Run = Run {
    script: b"go pass 2500\n",
    words: "dfu run a",
    is_typed: false,
    room: 3,
    status: 0,
    passes: 2500,
    last: b"image 00\n",
    prints: 3,
};

/// Each call of printing fails in its turn.
#[rustfmt::skip]
static RUNS: [Run; 9] = [
    LONG,
    Run { room: 2, status: 3, passes: 2184, last: b"", prints: 2, ..LONG },
    Run { room: 1, status: 3, passes: 1092, last: b"", prints: 1, ..LONG },
    Run { room: 0, status: 3, passes: 0, last: b"", prints: 0, ..LONG },
    Run { script: b"go pass 2500\nno line\n", status: 1, last: b"refused BadLine 2\n", ..LONG },
    Run { script: b"go pass 2500\nno line\n", room: 2, status: 3, passes: 2184, last: b"", prints: 2, ..LONG },
    // 1,000,014 bytes: at most one call for each 8,192 bytes, and one more.
    Run { script: b"go pass 66667\n", room: 123, passes: 66667, prints: 62, ..LONG },
    Run { script: b"go pass 2\n", words: "dfu run -", passes: 2, prints: 1, ..LONG },
    // The line of the image is printed in three calls.
    Run { script: b"go pass 2\n", words: "dfu run -", is_typed: true, room: 5, passes: 2, prints: 5, ..LONG },
];

/// A machine with the script as `a` and on standard input.
fn machine_for(run: &Run) -> Outcome<Machine> {
    let mut machine = Machine::new(run.script, "");
    machine.is_typed = run.is_typed;
    machine.put("a", Kind::File, run.script)?;
    let mut state = machine.state.borrow_mut();
    state.room = run.room;
    drop(state);
    Ok(machine)
}

/// What follows so many passes.
fn behind(printed: &[u8], passes: usize) -> Option<&[u8]> {
    let mut rest = printed;
    for _ in 0..passes {
        rest = rest.strip_prefix(PASS)?;
    }
    Some(rest)
}

#[test]
fn prints_whole_buffers() -> Outcome {
    for run in &RUNS {
        let machine = machine_for(run)?;
        let words = words_of(run.words)?;
        let status = run_words(&Host { machine: &machine }, &words);
        let state = machine.state.borrow();
        let last = behind(&state.printed, run.passes);
        assert_eq!(
            (status, state.prints, last),
            (run.status, run.prints, Some(run.last))
        );
    }
    Ok(())
}
