//! What is said on standard error, on the machine in memory.

use crate::acting::{OLD, machine_over};
use crate::host::Host;
use crate::machine::{Kind, Machine};
use dfu::command::run_explained;
use unit_program::Outcome;
use unit_program::words::words_of;

/// The words end with this status, print this, and say this on standard error.
pub fn says(machine: &Machine, line: &str, is_wanted: bool, row: (u8, &str, &str)) {
    let words = words_of(line).expect("memory for the words");
    let status = run_explained(&Host { machine }, &words, is_wanted);
    let state = machine.state.borrow();
    let (wanted, printed, told) = row;
    assert_eq!(status, wanted, "{line}");
    assert_eq!(state.printed.as_slice(), printed.as_bytes(), "{line}");
    assert_eq!(state.told, told, "{line}");
}

const BAD_LINE: &str =
    "dfu: standard input: line 2: its word 3 isn't a number from 1 to 1,000,000\n";

const BAD_SETUP: &str = "dfu: standard input: line 1: its first field isn't the sixteen hexadecimal digits of a setup, \
    and it isn't reset or power\n";

/// Words, the call that fails, and the status, what is printed and what is said.
#[rustfmt::skip]
static SAID: [(&str, &str, (u8, &str, &str)); 15] = [
    ("dfu check c", "", (3, "fault Read\n", "dfu: c: entity not found\n")),
    ("dfu check a", "open", (3, "fault Read\n", "dfu: a: permission denied\n")),
    ("dfu run - --file c", "", (3, "fault Read\n", "dfu: c: entity not found\n")),
    ("dfu add c b", "", (3, "fault Read\n", "dfu: c: entity not found\n")),
    ("dfu add a b", "see", (3, "fault Write\n", "dfu: b: permission denied\n")),
    ("dfu add a b", "rights", (3, "fault Write\n", "dfu: b: permission denied\n")),
    ("dfu add a b", "write", (3, "fault Write\n", "dfu: b: permission denied\n")),
    ("dfu add a b", "sync", (3, "fault Write\n", "dfu: b: permission denied\n")),
    ("dfu add a b", "rename", (3, "fault Write\n", "dfu: b: permission denied\n")),
    ("dfu add a b", "", (0, "wrote 25\n", "")),
    ("dfu check a", "", (1, "refused TooShort\n", "dfu: a: it has under 16 bytes, and so no suffix; dfu add gives a raw image one\n")),
    ("dfu run -", "", (1, "state appIDLE status OK image 00\nrefused BadLine 2\n", BAD_LINE)),
    ("dfu judge -", "", (1, "refused BadLine 1\n", BAD_SETUP)),
    ("dfu judge - --interface 256", "", (2, "bad words\n", "dfu: --interface 256: it has to be a number from 0 to 255\n")),
    ("dfu judge - --device 1", "", (2, "bad words\n", "dfu: --device 1: it has to be only, or a bus and a device, as 1.7\n")),
];

#[test]
fn says_why() -> Outcome {
    for (line, failing, row) in &SAID {
        let mut machine = machine_over(Kind::File, OLD, failing)?;
        machine.input = b"show\ngo pass 0\nshow\n";
        says(&machine, line, true, *row);
    }
    Ok(())
}

/// Nothing is said if no reason is wanted and the flag is missing. The flag asks for the reason.
#[test]
fn says_it_where_it_is_wanted() -> Outcome {
    for (line, failing, (status, printed, told)) in &SAID {
        let mut machine = machine_over(Kind::File, OLD, failing)?;
        machine.input = b"show\ngo pass 0\nshow\n";
        says(&machine, line, false, (*status, printed, ""));
        let mut machine = machine_over(Kind::File, OLD, failing)?;
        machine.input = b"show\ngo pass 0\nshow\n";
        let flagged = format!("{line} --explain");
        says(&machine, &flagged, false, (*status, printed, told));
    }
    Ok(())
}

/// If standard error fails, nothing else changes.
#[test]
fn ends_the_same_unsaid() -> Outcome {
    let machine = machine_over(Kind::File, OLD, "eprint")?;
    says(&machine, "dfu check c", true, (3, "fault Read\n", ""));
    Ok(())
}

/// Words that are refused, and what is said of them.
#[rustfmt::skip]
static WORDS: [(&str, &str); 8] = [
    ("dfu add a b --vid 0x12", "dfu: --vid 0x12: it has to be four hexadecimal digits, as 1209\n"),
    ("dfu add a b --vid 1209 --pid 0x01 --did 1", "dfu: --pid 0x01: it has to be four hexadecimal digits, as 1209\n"),
    ("dfu add a b --vid 1209 --pid 0001 --did 1", "dfu: --did 1: it has to be four hexadecimal digits, as 1209\n"),
    ("dfu add a b --did 1 --vid 12095", "dfu: --vid 12095: it has to be four hexadecimal digits, as 1209\n"),
    ("dfu run - --file -", "dfu: --file -: the script is standard input already\n"),
    ("dfu add a -", "dfu: OUT -: it has to be a file, as ./- for one with this name\n"),
    ("dfu show name 00", "dfu: KIND name: it has to be functional, status, state, setup or configuration\n"),
    ("dfu show a\u{1b}[31m\u{7f}\u{fc} 00", "dfu: KIND a?[31m?\u{fc}: it has to be functional, status, state, setup or configuration\n"),
];

#[test]
fn says_which_word_is_wrong() -> Outcome {
    for (line, told) in &WORDS {
        let machine = machine_over(Kind::File, OLD, "")?;
        says(&machine, line, true, (2, "bad words\n", told));
    }
    Ok(())
}

/// Words of dfu-suffix and of dfu-prefix, and what is said of them; and words of nobody.
#[rustfmt::skip]
static FOREIGN: [(&str, &str); 8] = [
    ("dfu -c a", "dfu: -c: type dfu check FILE\n"),
    ("dfu -v 1209 -a a", "dfu: -a: type dfu add FILE OUT --vid VID --pid PID --did DID\n"),
    ("dfu strip a", "dfu: strip: type dfu extract FILE OUT\n"),
    ("dfu -T a", "dfu: -T: a prefix is neither made nor read here; dfu-prefix does both\n"),
    ("dfu -v -a", ""),
    ("dfu check -D a", ""),
    ("dfu chek a", ""),
    ("dfu", ""),
];

/// It is said if no reason is wanted too.
#[test]
fn says_what_to_type() -> Outcome {
    for (line, told) in &FOREIGN {
        for is_wanted in [false, true] {
            let machine = machine_over(Kind::File, OLD, "")?;
            let words = words_of(line).expect("memory for the words");
            let status = run_explained(&Host { machine: &machine }, &words, is_wanted);
            assert_eq!(status, 2, "{line}");
            assert_eq!(machine.state.borrow().told, *told, "{line}");
        }
    }
    Ok(())
}
