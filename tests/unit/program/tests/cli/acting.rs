//! What the words do on the machine in memory.

use crate::host::Host;
use crate::machine::{Kind, Machine, entry_in};
use dfu::command::run_words;
use unit_program::Outcome;
use unit_program::known_files::FOUR_ONES;
use unit_program::words::words_of;

/// What OUT was before.
pub const OLD: &[u8] = &FOUR_ONES;

pub const ADD: &str = "dfu add a b --vid 1209 --pid 0001 --did 0100";

/// A machine with FILE `a`.
pub fn machine_with(file: &[u8], failing: &'static str) -> Outcome<Machine> {
    let machine = Machine::new(b"show\n", failing);
    machine.put("a", Kind::File, file)?;
    Ok(machine)
}

/// A machine with nine digits as FILE `a`, and with OUT `b`.
pub fn machine_over(kind: Kind, out: &[u8], failing: &'static str) -> Outcome<Machine> {
    let machine = machine_with(b"123456789", failing)?;
    machine.put("b", kind, out)?;
    Ok(machine)
}

/// Calls that fail, what is printed then, and the part that is left if it can't be removed.
pub static FAULTS: [(&str, &str, &str); 9] = [
    ("open", "fault Read\n", ""),
    ("see", "fault Write\n", ""),
    ("look", "fault Write\n", ""),
    ("create", "fault Write\n", ""),
    ("rights", "fault Write\n", ""),
    ("write", "fault Write\n", ""),
    ("sync", "fault Write\n", ""),
    ("rename", "fault Write\n", ""),
    ("rename remove", "fault Write\n", ".dfu-part-0;"),
];

/// The words end with status 3 and print this fault. The folder has these names, and one of them has these bytes.
pub fn keeps(
    machine: &Machine,
    line: &str,
    printed: &str,
    names: &str,
    (name, bytes): (&str, &[u8]),
) -> Outcome {
    ends(machine, line, 3)?;
    prints(machine, printed)?;
    holds(machine, names, name, bytes)
}

/// The words end with this status.
pub fn ends(machine: &Machine, line: &str, status: u8) -> Outcome {
    let words = words_of(line)?;
    let (found, failing) = (run_words(&Host { machine }, &words), machine.failing);
    assert_eq!(found, status, "{line}, failing '{failing}'");
    Ok(())
}

/// The machine printed this.
pub fn prints(machine: &Machine, printed: &str) -> Outcome {
    let state = machine.state.borrow();
    let failing = machine.failing;
    assert_eq!(
        state.printed.as_slice(),
        printed.as_bytes(),
        "failing '{failing}'"
    );
    Ok(())
}

/// These calls were made.
pub fn calls(machine: &Machine, calls: &str) {
    let state = machine.state.borrow();
    assert_eq!(state.calls.as_str(), calls);
}

/// The folder has these names, and one of them has these bytes.
pub fn holds(machine: &Machine, names: &str, name: &str, bytes: &[u8]) -> Outcome {
    let found = machine.names();
    let state = machine.state.borrow();
    let (entry, failing) = (entry_in(&state.folder, name)?, machine.failing);
    assert_eq!(
        (found.as_str(), entry.bytes.as_slice()),
        (names, bytes),
        "{name}, failing '{failing}'"
    );
    Ok(())
}
