//! What the words of a line read and print on the machine in memory, and how they end.

use crate::acting::{calls, ends, machine_with, prints};
use unit_program::Outcome;
use unit_program::known_files::FOUR_ONES;

/// Words, what is printed, the calls that are made, and the end.
#[rustfmt::skip]
static READ: [(&str, &str, &str, u8); 45] = [
    ("dfu check a", "ok payload 4 suffix 16 device ffff product ffff vendor ffff dfu 0100 crc 0c51c871\n", "open a;", 0),
    ("dfu check -", "refused TooShort\n", "", 1),
    ("dfu check c", "fault Read\n", "open c;", 3),
    ("dfu check a -", "a: ok payload 4 suffix 16 device ffff product ffff vendor ffff dfu 0100 crc 0c51c871\n-: refused TooShort\n", "open a;", 1),
    ("dfu check c - a", "c: fault Read\n-: refused TooShort\na: ok payload 4 suffix 16 device ffff product ffff vendor ffff dfu 0100 crc 0c51c871\n", "open c;open a;", 3),
    ("dfu extract - b", "refused TooShort\n", "", 1),
    ("dfu extract c b", "fault Read\n", "open c;", 3),
    ("dfu extract a -", "bad words\n", "", 2),
    ("dfu set a", "bad words\n", "", 2),
    ("dfu set - --vid 1209", "bad words\n", "", 2),
    ("dfu set a --vid 12", "bad words\n", "", 2),
    ("dfu set c --vid 1209", "fault Read\n", "open c;", 3),
    ("dfu add - b --format bin", "bad words\n", "", 2),
    ("dfu add - b --fill ff", "bad words\n", "", 2),
    ("dfu add - b --fill ff --format raw", "bad words\n", "", 2),
    ("dfu add - b --fill f --format auto", "bad words\n", "", 2),
    ("dfu add - b --format uf2", "refused BadSize\n", "", 1),
    ("dfu add - b --format ihex", "refused NoMark 1\n", "", 1),
    ("dfu judge - a", "-: refused BadLine 1\na: refused BadLine 1\n", "open a;", 1),
    ("dfu run a", "refused BadLine 1\n", "open a;", 1),
    ("dfu run -", "state appIDLE status OK image 00\nimage 00\n", "", 0),
    ("dfu run c", "fault Read\n", "open c;", 3),
    ("dfu run - --file a", "state appIDLE status OK image 00\nimage 00\n", "open a;", 0),
    ("dfu run a --file -", "refused BadLine 1\n", "open a;", 1),
    ("dfu run - --file c", "fault Read\n", "open c;", 3),
    ("dfu run c --file a", "fault Read\n", "open a;open c;", 3),
    ("dfu run - --trace --file a", "state appIDLE status OK image 00\nimage 00\n", "open a;", 0),
    ("dfu run - --file -", "bad words\n", "", 2),
    ("dfu run - --file=- --trace", "bad words\n", "", 2),
    ("dfu show name 00", "bad words\n", "", 2),
    ("dfu judge -", "refused BadLine 1\n", "", 1),
    ("dfu judge a", "refused BadLine 1\n", "open a;", 1),
    ("dfu judge c", "fault Read\n", "open c;", 3),
    ("dfu judge a --interface x", "bad words\n", "", 2),
    ("dfu judge --dfuse - a", "-: refused BadLine 1\na: refused BadLine 1\n", "open a;", 1),
    ("dfu judge c --dfuse", "fault Read\n", "open c;", 3),
    ("dfu plan --part x --boot 1", "refused UnknownPart\n", "", 1),
    ("dfu plan --part stm32f407 --boot 1024k", "refused NoRoom\n", "", 1),
    ("dfu plan --part x --boot y", "bad words\n", "", 2),
    ("dfu plan --part x --boot 1 --areas 4 --parts a", "bad words\n", "", 2),
    ("dfu plan --part x --boot 1 --parts a", "refused BadLine 1\n", "open a;", 1),
    ("dfu plan --part x --boot 1 --parts c", "fault Read\n", "open c;", 3),
    ("dfu add - -", "bad words\n", "", 2),
    ("dfu add c -", "bad words\n", "", 2),
    ("dfu add - b --vid 12", "bad words\n", "", 2),
];

/// With `--file` the word FILE means the bytes of that file.
#[test]
fn offers_what_is_given() -> Outcome {
    let mut machine = machine_with(&FOUR_ONES, "")?;
    machine.input = b"offer FILE\ngo until report\n";
    ends(&machine, "dfu run - --file a", 0)?;
    prints(&machine, "report installed\nimage ffffffff\n")?;
    ends(&machine, "dfu run -", 1)
}

/// Standard input has a script, and `a` a file.
#[test]
fn reads_what_is_named() -> Outcome {
    for (line, printed, made, end) in &READ {
        let machine = machine_with(&FOUR_ONES, "")?;
        ends(&machine, line, *end)?;
        prints(&machine, printed)?;
        calls(&machine, made);
    }
    Ok(())
}

/// Words, the call that fails, and the end.
static TOLD: [(&str, &str, u8); 6] = [
    ("dfu --help", "", 0),
    ("dfu help add", "", 0),
    ("dfu --version", "", 0),
    ("dfu", "", 2),
    ("dfu --help", "print", 3),
    ("dfu", "print", 3),
];

#[test]
fn ends_as_the_parser_says() -> Outcome {
    for (line, failing, end) in &TOLD {
        let machine = machine_with(b"", failing)?;
        ends(&machine, line, *end)?;
        let state = machine.state.borrow();
        assert_eq!(state.printed.is_empty(), *end == 3, "{line}");
    }
    Ok(())
}
