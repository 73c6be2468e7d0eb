//! Scripts with readers and writers of many kinds. `tests/dfu/scripts` runs the program, to show what scripts print.

mod portions;
mod rows;
mod streams;
mod traces;

use dfu::link::ScriptFault;

/// What each fault is printed as.
#[rustfmt::skip]
pub static TEXTS: [(ScriptFault, &str); 9] = [
    (ScriptFault::BadLine(7), "line 7 is not understood"),
    (ScriptFault::LateConfig(2), "line 2 sets up a device that has begun"),
    (ScriptFault::BadConfig, "no device can be set up like this"),
    (ScriptFault::Expected(3), "line 3 expects another line than the one that is printed next"),
    (ScriptFault::NonePrinted(3), "no line is printed that line 3 could expect"),
    (ScriptFault::TooLarge, "the script has over 16777216 bytes"),
    (ScriptFault::NoMemory, "out of memory"),
    (ScriptFault::Read, "the script can't be read"),
    (ScriptFault::Write, "the output can't be written"),
];
