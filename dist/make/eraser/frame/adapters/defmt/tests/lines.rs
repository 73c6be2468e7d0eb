//! What a logger of defmt is handed: the names are in it as they are. It is built with DEFMT_LOG=info.
use fustrelan::host::Report;
use fustrelan::wire::{Code, State};
use fustrelan_defmt::{States, say};
use std::sync::Mutex;

#[defmt::global_logger]
struct Kept;

static BYTES: Mutex<Vec<u8>> = Mutex::new(Vec::new());

unsafe impl defmt::Logger for Kept {
    fn acquire() {}
    unsafe fn flush() {}
    unsafe fn release() {}
    unsafe fn write(bytes: &[u8]) {
        BYTES.lock().unwrap().extend_from_slice(bytes);
    }
}

defmt::timestamp!("");

fn has(text: &str) -> usize {
    BYTES.lock().unwrap().windows(text.len()).filter(|part| *part == text.as_bytes()).count()
}

#[test]
fn states_and_reports_are_said() {
    let mut states = States::new();
    for (state, code) in [(State::DfuIdle, Code::Ok), (State::DfuIdle, Code::Ok), (State::Error, Code::Write), (State::Error, Code::Write)]
    {
        states.see(state, code);
    }
    say(Report::Verified);
    say(Report::Refused(Code::Address));
    assert_eq!((has("dfuIDLE"), has("dfuERROR"), has("errWRITE")), (1, 1, 1));
    assert_eq!((has("verified"), has("refused"), has("errADDRESS")), (1, 1, 1));
}
