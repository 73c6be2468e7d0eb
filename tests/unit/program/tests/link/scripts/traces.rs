//! Scripts with a line for each action, worked out by hand; `tests/dfu/scripts` runs the program on more.

use super::rows::{text_of, told};
use dfu::link::{ScriptFault, script, script_traced};
use fustrelan::memory::Global;
use std::io::{self, ErrorKind, Write};
use unit_program::Outcome;

/// What a row prints with a trace.
fn traced(row: &str, wanted: &str) -> Outcome {
    let (end, is_traced, out) = told(row)?;
    assert!(end.is_ok() && is_traced);
    assert_eq!(std::str::from_utf8(&out)?, wanted);
    Ok(())
}

/// A clean download: docs/PROFILE.md has its picture. The medium has two slots of 16 + 16 + 64 bytes. The second one
/// is the spare slot: its gate is at 96, its header at 112, and its data begin at 128.
const CLEAN: &str = "\
# 1 Find; GETSTATUS 0 6; pass; OK 0 appIDLE; appIDLE; appIDLE; -; 0 ms
# 2 Detach; DETACH 255 0; pass; ack; appIDLE; appDETACH; -; 0 ms
# 3 Enter; reset; pass; -; appDETACH; dfuIDLE; -; 0 ms
# 4 Find; GETSTATUS 0 6; pass; OK 0 dfuIDLE; dfuIDLE; dfuIDLE; -; 0 ms
# 5 Block 0; DNLOAD 0 4; pass; ack; dfuIDLE; dfuDNLOAD-SYNC; -; 0 ms
# 6 Poll 0; GETSTATUS 0 6; pass; OK 5 dfuDNBUSY; dfuDNLOAD-SYNC; dfuDNBUSY; -; 0 ms
# 7 WaitPoll 0; wait 5; pass; -; dfuDNBUSY; dfuDNLOAD-SYNC; 4 at 128; 5 ms
# 8 Poll 0; GETSTATUS 0 6; pass; OK 0 dfuDNLOAD-IDLE; dfuDNLOAD-SYNC; dfuDNLOAD-IDLE; -; 5 ms
# 9 Close; DNLOAD 1 0; pass; ack; dfuDNLOAD-IDLE; dfuMANIFEST-SYNC; -; 5 ms
# 10 Manifest; GETSTATUS 0 6; pass; OK 10 dfuMANIFEST; dfuMANIFEST-SYNC; dfuMANIFEST; -; 5 ms
# 11 WaitManifest; wait 10; pass; -; dfuMANIFEST; dfuMANIFEST-SYNC; 16 at 112, 16 at 96; 15 ms
# 12 Manifest; GETSTATUS 0 6; pass; OK 0 dfuIDLE; dfuMANIFEST-SYNC; dfuIDLE; -; 15 ms
# 13 Last; reset; pass; -; dfuIDLE; appIDLE; -; 15 ms
report installed
image ffffffff
";

#[test]
fn clean_run_is_told() -> Outcome {
    traced("offer W/go pass 13", CLEAN)?;
    traced("offer W/go until report", CLEAN)
}

/// The answer to block 0 is lost, then time passes, then the first write of the block fails, and the host asks why.
const HARMED: &str = "\
# 1 Find; GETSTATUS 0 6; pass; OK 0 appIDLE; appIDLE; appIDLE; -; 7 ms
# 2 Detach; DETACH 255 0; pass; ack; appIDLE; appDETACH; -; 7 ms
# 3 Enter; reset; pass; -; appDETACH; dfuIDLE; -; 7 ms
# 4 Find; GETSTATUS 0 6; pass; OK 0 dfuIDLE; dfuIDLE; dfuIDLE; -; 7 ms
# 5 Block 0; DNLOAD 0 4; lostback; ack; dfuIDLE; dfuDNLOAD-SYNC; -; 7 ms
# 6 Ask 0; GETSTATE 0 1; pass; dfuDNLOAD-SYNC; dfuDNLOAD-SYNC; dfuDNLOAD-SYNC; -; 7 ms
# 7 Poll 0; GETSTATUS 0 6; pass; OK 5 dfuDNBUSY; dfuDNLOAD-SYNC; dfuDNBUSY; -; 7 ms
# 8 WaitPoll 0; wait 5; fail 0 -; -; dfuDNBUSY; dfuERROR; 4 at 128 failed; 12 ms
image 00
";

#[test]
fn harms_are_told() -> Outcome {
    traced(
        "time 7/offer W/go pass 4/go lostback/go pass 2/go fail 0 -",
        HARMED,
    )
}

/// The same over flash with sectors of 256 bytes that takes 40 ms for an erase and 8 ms for 256 bytes. The unit of 16 bytes is not full,
/// so block 0 writes nothing; but it closes the spare slot's gate, if that is open: an erase and 256 bytes, 48 ms, beside its 5. The image
/// takes three erases, 120 ms, and 16 + 256 + 256 bytes, 16.5 ms, said as 17, beside its 10. The spare slot's gate is at 768, its header
/// at 1,024, and its data begin at 1,280.
const PACED: &str = "\
# 1 Find; GETSTATUS 0 6; pass; OK 0 appIDLE; appIDLE; appIDLE; -; 0 ms
# 2 Detach; DETACH 255 0; pass; ack; appIDLE; appDETACH; -; 0 ms
# 3 Enter; reset; pass; -; appDETACH; dfuIDLE; -; 0 ms
# 4 Find; GETSTATUS 0 6; pass; OK 0 dfuIDLE; dfuIDLE; dfuIDLE; -; 0 ms
# 5 Block 0; DNLOAD 0 4; pass; ack; dfuIDLE; dfuDNLOAD-SYNC; -; 0 ms
# 6 Poll 0; GETSTATUS 0 6; pass; OK 53 dfuDNBUSY; dfuDNLOAD-SYNC; dfuDNBUSY; -; 0 ms
# 7 WaitPoll 0; wait 53; pass; -; dfuDNBUSY; dfuDNLOAD-SYNC; -; 53 ms
# 8 Poll 0; GETSTATUS 0 6; pass; OK 0 dfuDNLOAD-IDLE; dfuDNLOAD-SYNC; dfuDNLOAD-IDLE; -; 53 ms
# 9 Close; DNLOAD 1 0; pass; ack; dfuDNLOAD-IDLE; dfuMANIFEST-SYNC; -; 53 ms
# 10 Manifest; GETSTATUS 0 6; pass; OK 147 dfuMANIFEST; dfuMANIFEST-SYNC; dfuMANIFEST; -; 53 ms
# 11 WaitManifest; wait 147; pass; -; dfuMANIFEST; dfuMANIFEST-SYNC; MADE; 200 ms
# 12 Manifest; GETSTATUS 0 6; pass; OK 0 dfuIDLE; dfuMANIFEST-SYNC; dfuIDLE; -; 200 ms
# 13 Last; reset; pass; -; dfuIDLE; appIDLE; -; 200 ms
report installed
image ffffffff
";

/// What putting the image in place writes.
const MADE: &str =
    "erased 256 at 1280, 16 at 1280, erased 256 at 1024, 16 at 1024, erased 256 at 768, 16 at 768";

#[test]
fn times_of_the_flash_are_told() -> Outcome {
    traced(
        "unit 16/erase 256/pace 40 8/capacity 256/offer W/go until report",
        &PACED.replace("MADE", MADE),
    )
}

/// A writer that fails at a byte, and counts the writes after that.
struct Failing {
    room: usize,
    late: usize,
}

impl Write for Failing {
    fn write(&mut self, buf: &[u8]) -> io::Result<usize> {
        if self.room == 0 {
            self.late += 1;
            return Err(io::Error::from(ErrorKind::Other));
        }
        let count = buf.len().min(self.room);
        self.room -= count;
        Ok(count)
    }

    fn flush(&mut self) -> io::Result<()> {
        Ok(())
    }
}

/// If the trace can't be written, the text is the same, no further line is tried, and the answer says so.
#[test]
fn a_trace_that_fails_leaves_the_text() {
    let text = text_of("offer W/go pass 13");
    let mut wanted = Vec::new();
    let end = script(Global, text.as_slice(), &mut wanted);
    for room in [0, 1, 90, 500] {
        let mut trace = Failing { room, late: 0 };
        let mut out = Vec::new();
        let (told_end, is_traced) = script_traced(Global, text.as_slice(), &mut out, &mut trace);
        assert_eq!(told_end, end);
        assert_eq!(out.as_slice(), wanted.as_slice());
        assert!(!is_traced && trace.late == 1);
    }
}

/// If the text can't be written, the script stops, with any trace.
#[test]
fn a_text_that_fails_stops_the_script() {
    let text = text_of("offer W/go pass 13");
    let mut trace = Vec::new();
    let mut out = Failing { room: 3, late: 0 };
    let (end, is_traced) = script_traced(Global, text.as_slice(), &mut out, &mut trace);
    assert_eq!(end, Err(ScriptFault::Write));
    assert!(is_traced && trace.starts_with(b"# 1 Find") && trace.ends_with(b" 15 ms\n"));
}
