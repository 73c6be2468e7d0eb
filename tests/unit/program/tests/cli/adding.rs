//! `dfu add` on the machine in memory: which calls it makes, and what is in the folder when one fails.

use crate::acting::{
    ADD, FAULTS, OLD, calls, ends, holds, keeps, machine_over, machine_with, prints,
};
use crate::machine::{Kind, Machine};
use dfu::files::rights_after;
use unit_program::Outcome;
use unit_program::known_files::{DIGITS, FOUR_ONES};

/// The words make OUT of nine digits, by these calls, and then there are these names.
fn makes(machine: &Machine, line: &str, made: &str, names: &str) -> Outcome {
    ends(machine, line, 0)?;
    calls(machine, made);
    prints(machine, "wrote 25\n")?;
    holds(machine, names, "b", &DIGITS)
}

#[test]
fn makes_a_new_file() -> Outcome {
    let machine = machine_with(b"123456789", "")?;
    let made = "open a;see b;look b;create .dfu-part-0 666;write;sync;rename .dfu-part-0 b;";
    makes(&machine, ADD, made, "a;b;")
}

/// Standard input is read, and no file is opened for it.
#[test]
fn reads_standard_input() -> Outcome {
    let machine = Machine::new(b"123456789", "");
    let line = "dfu add - b --vid 1209 --pid 0001 --did 0100";
    let made = "see b;look b;create .dfu-part-0 666;write;sync;rename .dfu-part-0 b;";
    makes(&machine, line, made, "b;")
}

/// The new file has its owner and its rights before it has a byte.
#[test]
fn replaces_a_file() -> Outcome {
    let machine = machine_over(Kind::File, OLD, "")?;
    let made = "open a;see b;look b;see a;open b;create .dfu-part-0 600;owner;rights 644;write;sync;rename .dfu-part-0 b;";
    makes(&machine, ADD, made, "a;b;")
}

/// OUT that has bytes and is no DFU file stays, because it may be an input that was typed for OUT. It is looked at and read, and no
/// part is made.
#[test]
fn keeps_an_input() -> Outcome {
    let mut damaged = FOUR_ONES;
    damaged[0] = 0;
    for input in [b"other".as_slice(), &damaged, &FOUR_ONES[1..]] {
        let machine = machine_over(Kind::File, input, "")?;
        ends(&machine, ADD, 3)?;
        prints(&machine, "fault Write\n")?;
        calls(&machine, "open a;see b;look b;see a;open b;");
        holds(&machine, "a;b;", "b", input)?;
    }
    Ok(())
}

/// FILE itself is replaced, as is a file without a byte, and what is read for either is no more than their looks.
#[test]
fn replaces_file_and_what_is_empty() -> Outcome {
    let machine = machine_with(b"123456789", "")?;
    let made = "open a;see a;look a;see a;create .dfu-part-0 600;owner;rights 644;write;sync;rename .dfu-part-0 a;";
    ends(&machine, "dfu add a a --vid 1209 --pid 0001 --did 0100", 0)?;
    calls(&machine, made);
    holds(&machine, "a;", "a", &DIGITS)?;
    let machine = machine_over(Kind::File, b"", "")?;
    let made = "open a;see b;look b;create .dfu-part-0 600;owner;rights 644;write;sync;rename .dfu-part-0 b;";
    makes(&machine, ADD, made, "a;b;")
}

/// Standard input is no file of the folder, so a file called `-` is no FILE.
#[test]
fn keeps_a_file_called_as_standard_input() -> Outcome {
    let machine = Machine::new(b"123456789", "");
    machine.put("-", Kind::File, b"other")?;
    machine.put("b", Kind::Link, b"-")?;
    ends(&machine, "dfu add - b", 3)?;
    calls(&machine, "see b;look b;follow b;look -;open -;");
    holds(&machine, "-;b;", "-", b"other")
}

/// OUT is not looked at.
#[test]
fn keeps_out_at_a_refusal() -> Outcome {
    let machine = machine_with(&FOUR_ONES, "")?;
    machine.put("b", Kind::File, OLD)?;
    ends(&machine, "dfu add a b --vid 12", 2)?;
    prints(&machine, "bad words\n")?;
    calls(&machine, "");
    ends(&machine, ADD, 1)?;
    prints(&machine, "bad words\nrefused AlreadySuffixed\n")?;
    calls(&machine, "open a;");
    holds(&machine, "a;b;", "b", OLD)
}

/// Each call fails in turn: OUT is unchanged, and no part is left if it can be removed.
#[test]
fn keeps_out_at_a_fault() -> Outcome {
    for (failing, printed, part) in &FAULTS {
        let machine = machine_over(Kind::File, OLD, failing)?;
        let names = format!("a;b;{part}");
        keeps(&machine, ADD, printed, &names, ("b", OLD))?;
    }
    Ok(())
}

/// OUT is made, and the words end with this status.
fn makes_out(failing: &'static str, end: u8) -> Outcome {
    let machine = machine_over(Kind::File, OLD, failing)?;
    ends(&machine, ADD, end)?;
    holds(&machine, "a;b;", "b", &DIGITS)
}

/// An owner that can't be set is no fault. A line that can't be printed is one, though OUT is made.
#[test]
fn makes_out_at_a_lesser_fault() -> Outcome {
    makes_out("owner", 0)?;
    makes_out("print", 3)
}

/// The links stay, also one that leads to nothing. A name in a link is relative to the link's folder,
/// and the part is made beside the file at the end.
#[test]
fn follows_links() -> Outcome {
    let machine = machine_over(Kind::Link, b"/d/c", "")?;
    machine.put("/d/c", Kind::Link, b"e")?;
    machine.put("/d/e", Kind::File, OLD)?;
    machine.put("e", Kind::File, OLD)?;
    ends(&machine, ADD, 0)?;
    let made = "open a;see b;look b;follow b;look /d/c;follow /d/c;look /d/e;see a;open /d/e;create /d/.dfu-part-0 600;\
owner;rights 644;write;sync;rename /d/.dfu-part-0 /d/e;";
    calls(&machine, made);
    holds(&machine, "a;b;/d/c;e;/d/e;", "/d/e", &DIGITS)?;
    holds(&machine, "a;b;/d/c;e;/d/e;", "e", OLD)
}

#[test]
fn follows_a_link_to_nothing() -> Outcome {
    let machine = machine_over(Kind::Link, b"c", "")?;
    ends(&machine, ADD, 0)?;
    holds(&machine, "a;b;c;", "c", &DIGITS)
}

/// An OUT that is no file.
static NO_FILES: [(Kind, &[u8]); 4] = [
    (Kind::Other, b""),
    (Kind::Link, b"b"),
    (Kind::Link, b"other"),
    (Kind::Link, b"nowhere/c"),
];

#[test]
fn keeps_what_is_no_file() -> Outcome {
    for (kind, bytes) in &NO_FILES {
        let machine = machine_over(*kind, bytes, "create nowhere")?;
        machine.put("other", Kind::Other, b"")?;
        ends(&machine, ADD, 3)?;
        holds(&machine, "a;b;other;", "b", bytes)?;
    }
    Ok(())
}

/// A name that is taken is left as it is, also if a link has it.
#[test]
fn takes_a_name_that_is_free() -> Outcome {
    let machine = machine_over(Kind::File, OLD, "")?;
    machine.put(".dfu-part-0", Kind::Link, b"a")?;
    machine.put(".dfu-part-1", Kind::File, OLD)?;
    ends(&machine, ADD, 0)?;
    let names = "a;.dfu-part-0;.dfu-part-1;b;";
    holds(&machine, names, ".dfu-part-1", OLD)?;
    holds(&machine, names, "a", b"123456789")?;
    holds(&machine, names, "b", &DIGITS)
}

/// The rights of a file, whether its owner and group are kept, and the rights of the new one.
static RIGHTS: [(u32, bool, u32); 6] = [
    (0o100600, true, 0o600),
    (0o104755, true, 0o755),
    (0o100640, false, 0o600),
    (0o100664, false, 0o644),
    (0o100604, false, 0o644),
    (0o102775, false, 0o755),
];

/// A group that gets the file only now had the rights of all others.
#[test]
fn gives_rights() {
    for (mode, is_kept, rights) in &RIGHTS {
        assert_eq!(rights_after(*mode, *is_kept), *rights, "{mode:o} {is_kept}");
    }
}
