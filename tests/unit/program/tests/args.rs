//! The jobs that known words ask for.

use dfu::system::text;
use dfu::words::{ArgsFault, Subcommand, parse_args, parse_subcommand};
use fustrelan::memory::Global;
use unit_program::Outcome;
use unit_program::words::words_of;

/// The texts, each ended by `;`.
fn joined(texts: &[&str]) -> String {
    texts.iter().map(|text| format!("{text};")).collect()
}

/// The same of an argument that has several texts.
fn listed(texts: &[text::String]) -> String {
    texts.iter().map(|text| format!("{text};")).collect()
}

/// An option that may be missing.
fn given(option: &Option<text::String>) -> &str {
    match option {
        Some(text) => text,
        None => "none",
    }
}

/// A flag, if it is set.
fn set(is_set: bool, flag: &str) -> String {
    if is_set {
        format!("{flag};")
    } else {
        String::new()
    }
}

/// A job that makes a file in words, or none.
fn made_told(job: Subcommand) -> String {
    match job {
        Subcommand::Add {
            file,
            to,
            vid,
            pid,
            did,
            format,
            fill,
        } => {
            let (format, fill) = (given(&format), given(&fill));
            joined(&["add", &file, &to, &vid, &pid, &did, format, fill])
        }
        Subcommand::Extract { file, to } => joined(&["extract", &file, &to]),
        Subcommand::Change {
            file,
            vid,
            pid,
            did,
        } => joined(&["set", &file, given(&vid), given(&pid), given(&did)]),
        _ => joined(&["none"]),
    }
}

/// A job in words.
fn told(job: Subcommand) -> String {
    match job {
        Subcommand::Check { files, json } => {
            joined(&["check"]) + &listed(&files) + &set(json, "json")
        }
        Subcommand::Show { kind, hex, json } => {
            joined(&["show", &kind, "hex"]) + &listed(&hex) + &set(json, "json")
        }
        Subcommand::Run {
            script,
            trace,
            file,
        } => {
            let file = file.map_or(String::new(), |file| joined(&[&file]));
            joined(&["run", &script]) + &set(trace, "traced") + &file
        }
        Subcommand::Judge {
            files,
            interface,
            device,
            dfuse,
            json,
        } => {
            let asked = joined(&["judge"]) + &listed(&files) + &joined(&[&interface, &device]);
            asked + &set(dfuse, "dfuse") + &set(json, "json")
        }
        Subcommand::Plan {
            part,
            boot,
            areas,
            parts,
            json,
        } => joined(&["plan", &part, &boot, &areas, given(&parts)]) + &set(json, "json"),
        job => made_told(job),
    }
}

/// The job in words, or why there is none: the parser's exit status.
fn outcome(line: &str) -> Outcome<String> {
    Ok(match parse_subcommand(Global, &words_of(line)?) {
        Ok(job) => told(job),
        Err(ArgsFault::Words(error)) => format!("words {}", error.exit_code()),
        Err(ArgsFault::NoMemory) => String::from("no memory"),
    })
}

/// Words, and the job that they ask for.
static JOBS: [(&str, &str); 60] = [
    (
        "dfu add a b --pid 0001",
        "add;a;b;ffff;0001;ffff;none;none;",
    ),
    ("dfu add a b --did 1 --vid=2", "add;a;b;2;ffff;1;none;none;"),
    (
        "dfu add a b --fill ff --format=auto",
        "add;a;b;ffff;ffff;ffff;auto;ff;",
    ),
    ("dfu add a b --format", "words 2"),
    ("dfu add a b --fill 0 --fill 1", "words 2"),
    ("dfu check -", "check;-;"),
    ("dfu check a b c", "check;a;b;c;"),
    ("dfu check a --explain b", "check;a;b;"),
    ("dfu check --json a b", "check;a;b;json;"),
    ("dfu check a --fill ff", "words 2"),
    ("dfu extract a b", "extract;a;b;"),
    ("dfu extract a", "words 2"),
    ("dfu extract a b c", "words 2"),
    ("dfu set a --vid 1", "set;a;1;none;none;"),
    ("dfu set --did=1 a --pid 2", "set;a;none;2;1;"),
    ("dfu set a", "set;a;none;none;none;"),
    ("dfu set a b", "words 2"),
    ("dfu show status 00", "show;status;hex;00;"),
    ("dfu show status 00 05", "show;status;hex;00;05;"),
    (
        "dfu show status 00 --json 05",
        "show;status;hex;00;05;json;",
    ),
    ("dfu show status", "words 2"),
    ("dfu run -", "run;-;"),
    ("dfu run --trace a", "run;a;traced;"),
    ("dfu run --board a", "words 2"),
    ("dfu run a --file b", "run;a;b;"),
    ("dfu run --file=- a --trace", "run;a;traced;-;"),
    ("dfu run a --file", "words 2"),
    ("dfu run a --file b --file c", "words 2"),
    ("dfu judge", "judge;-;0;only;"),
    ("dfu judge a --interface 2", "judge;a;2;only;"),
    ("dfu judge --device=1.7 a", "judge;a;0;1.7;"),
    ("dfu judge a b", "judge;a;b;0;only;"),
    ("dfu judge --json", "judge;-;0;only;json;"),
    ("dfu judge --dfuse a", "judge;a;0;only;dfuse;"),
    ("dfu judge --json a --dfuse", "judge;a;0;only;dfuse;json;"),
    ("dfu check a --dfuse", "words 2"),
    ("dfu extract a b --json", "words 2"),
    ("dfu judge a b --device 1.2 c", "judge;a;b;c;0;1.2;"),
    ("dfu plan --part a --boot b", "plan;a;b;2;none;"),
    (
        "dfu plan --parts d --areas=c --boot b --part a",
        "plan;a;b;c;d;",
    ),
    ("dfu plan --json --boot=b --part=a", "plan;a;b;2;none;json;"),
    ("dfu plan --part a", "words 2"),
    ("dfu plan --boot b", "words 2"),
    ("dfu plan a --part a --boot b", "words 2"),
    ("dfu plan --part a --part a --boot b", "words 2"),
    ("dfu check a --boot b", "words 2"),
    ("dfu", "words 2"),
    ("dfu check", "words 2"),
    ("dfu add a", "words 2"),
    ("dfu add a b c", "words 2"),
    ("dfu run", "words 2"),
    ("dfu run a b", "words 2"),
    ("dfu check a --version", "words 2"),
    ("dfu check a --explain=1", "words 2"),
    ("dfu check a --explain --explain", "words 2"),
    ("dfu --version", "words 0"),
    ("dfu -V", "words 0"),
    ("dfu show status -x", "words 2"),
    ("dfu --help", "words 0"),
    ("dfu help add", "words 0"),
];

/// The parser refuses words that are no job with status 2; help has status 0.
#[test]
fn jobs_of_words() -> Outcome {
    for (line, found) in &JOBS {
        assert_eq!(outcome(line)?, *found, "{line}");
    }
    Ok(())
}

/// Words, and whether they ask for the reason of a refusal.
static REASONS: [(&str, bool); 9] = [
    ("dfu check a", false),
    ("dfu check a --explain", true),
    ("dfu --explain check a", true),
    ("dfu --explain check a --explain", true),
    ("dfu check -- --explain", false),
    ("dfu add a b --explain --vid 1", true),
    ("dfu add a b --vid 1", false),
    ("dfu show status 00 --explain", true),
    ("dfu run --explain -", true),
];

#[test]
fn reasons_wanted() -> Outcome {
    for (line, wanted) in &REASONS {
        match parse_args(Global, &words_of(line)?) {
            Ok(asked) => assert_eq!(asked.explain, *wanted, "{line}"),
            Err(_) => panic!("{line}"),
        }
    }
    Ok(())
}
