//! The lines, by a logger that keeps them.
use fustrelan::host::Report;
use fustrelan::wire::{Code, State};
use fustrelan_log::{States, TARGET, say};
use std::sync::Mutex;

struct Kept;

static LINES: Mutex<Vec<String>> = Mutex::new(Vec::new());

impl log::Log for Kept {
    fn enabled(&self, _: &log::Metadata) -> bool {
        true
    }

    fn log(&self, record: &log::Record) {
        assert_eq!(record.target(), TARGET);
        LINES.lock().unwrap().push(format!("{} {}", record.level(), record.args()));
    }

    fn flush(&self) {}
}

#[test]
fn states_and_reports_are_said() {
    log::set_logger(&Kept).unwrap();
    log::set_max_level(log::LevelFilter::Info);
    let mut states = States::new();
    for (state, code) in [(State::DfuIdle, Code::Ok), (State::DfuIdle, Code::Ok), (State::Error, Code::Write), (State::Error, Code::Write)]
    {
        states.see(state, code);
    }
    states.see(State::Error, Code::Prog);
    say(Report::Verified);
    say(Report::Refused(Code::Address));
    say(Report::GaveUp);
    assert_eq!(
        *LINES.lock().unwrap(),
        ["INFO dfuIDLE", "WARN dfuERROR, errWRITE", "WARN dfuERROR, errPROG", "INFO verified", "WARN refused, errADDRESS", "WARN gave-up"]
    );
}
