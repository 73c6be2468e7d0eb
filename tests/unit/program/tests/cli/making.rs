//! `dfu add --format`, `dfu extract` and `dfu set` on the machine in memory.

use crate::acting::{ADD, FAULTS, OLD, calls, ends, holds, keeps, machine_with, prints};
use crate::machine::Kind;
use unit_program::Outcome;
use unit_program::known_files::{DIGITS, FOUR_ONES};

/// Its second line has a space.
static HEX: &[u8] = b":020000040800F2\n:0400000031323334 32\n";

/// The same, as objcopy writes them.
static DIGITS_HEX: &[u8] = b":020000040800F2\r\n:090000003132333435363738391A\r\n:00000001FF\r\n";

/// The nine digits are added of FILE in this format, and this is printed.
fn adds(file: &[u8], format: &str, printed: &str) -> Outcome {
    let machine = machine_with(file, "")?;
    let line = format!("{ADD} --format {format}");
    ends(&machine, &line, 0)?;
    prints(&machine, printed)?;
    holds(&machine, "a;b;", "b", &DIGITS)
}

/// The file is the same as that of the raw image, and a second line says where the image begins.
#[test]
fn adds_the_image() -> Outcome {
    let printed = "wrote 25\nformat ihex address 0x08000000\n";
    adds(DIGITS_HEX, "auto", printed)?;
    adds(DIGITS_HEX, "ihex", printed)
}

/// A raw image is taken unchanged, and with `raw` so is text.
#[test]
fn adds_what_looks_like_none() -> Outcome {
    let machine = machine_with(&[0xff; 4], "")?;
    ends(&machine, "dfu add a b --format auto", 0)?;
    prints(&machine, "wrote 20\n")?;
    holds(&machine, "a;b;", "b", &FOUR_ONES)?;
    adds(b"123456789", "raw", "wrote 25\n")
}

/// Nothing is made from a file that is refused.
#[test]
fn refuses_by_name() -> Outcome {
    let machine = machine_with(HEX, "")?;
    machine.put("b", Kind::File, OLD)?;
    let line = format!("{ADD} --format auto");
    ends(&machine, &line, 1)?;
    prints(&machine, "refused BadDigit 2\n")?;
    calls(&machine, "open a;");
    holds(&machine, "a;b;", "b", OLD)
}

/// FILE, further words, what is printed, and the end.
static ROWS: [(&[u8], &str, &str, u8); 5] = [
    (b":00000001FF\n", "--format ihex", "refused NoData\n", 1),
    (
        b":0100000001FE\n:0100020001FC\n:00000001FF\n",
        "--format ihex",
        "refused Gap 00000001 00000002\n",
        1,
    ),
    (
        b":0100000001FE\n:0100020001FC\n:00000001FF\n",
        "--format ihex --fill a5",
        "wrote 19\nformat ihex address 0x00000000\n",
        0,
    ),
    (
        b":0100000001FE\n:0100000001FE\n:00000001FF\n",
        "--format ihex",
        "refused Overlaps 00000000\n",
        1,
    ),
    (b"S1040010AA41\n", "--format auto", "refused NoEnd\n", 1),
];

#[test]
fn says_what_came() -> Outcome {
    for (file, words, printed, end) in &ROWS {
        let machine = machine_with(file, "")?;
        let line = format!("dfu add a b {words}");
        ends(&machine, &line, *end)?;
        prints(&machine, printed)?;
    }
    Ok(())
}

/// Only the payload is written, and OUT is unchanged if FILE is refused.
#[test]
fn extracts() -> Outcome {
    let machine = machine_with(&DIGITS, "")?;
    ends(&machine, "dfu extract a b", 0)?;
    prints(&machine, "wrote 9\n")?;
    holds(&machine, "a;b;", "b", b"123456789")?;
    let machine = machine_with(b"123456789", "")?;
    machine.put("b", Kind::File, OLD)?;
    ends(&machine, "dfu extract a b", 1)?;
    calls(&machine, "open a;");
    holds(&machine, "a;b;", "b", OLD)
}

/// What checking the nine digits prints.
const SET: &str =
    "ok payload 9 suffix 16 device 0100 product 0001 vendor 1209 dfu 0100 crc fe701c62\n";

/// The identifiers that are given change, and change back.
#[test]
fn sets_identifiers() -> Outcome {
    let machine = machine_with(&DIGITS, "")?;
    ends(&machine, "dfu set a --vid ffff --did ffff", 0)?;
    ends(&machine, "dfu check a", 0)?;
    ends(&machine, "dfu set a --vid 1209 --did 0100", 0)?;
    holds(&machine, "a;", "a", &DIGITS)?;
    let state = machine.state.borrow();
    assert!(state.printed.as_slice().ends_with(SET.as_bytes()));
    Ok(())
}

/// Each call fails in turn: the file is unchanged, and no part is left if it can be removed.
#[test]
fn keeps_the_file_at_a_fault() -> Outcome {
    let line = "dfu set a --vid 1209";
    for (failing, printed, part) in &FAULTS {
        let machine = machine_with(&FOUR_ONES, failing)?;
        let names = format!("a;{part}");
        keeps(&machine, line, printed, &names, ("a", &FOUR_ONES))?;
    }
    Ok(())
}
