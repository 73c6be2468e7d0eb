//! Readers and writers that give or take few bytes at a time, or fail.

use super::rows::text_of;
use dfu::link::{ScriptFault, script};
use fustrelan::memory::Global;
use std::io::{self, ErrorKind, Read, Write};
use unit_program::{Outcome, refusing};

/// Gives this front and so many line ends, and then fails or is at its end. It counts its calls.
struct Blank {
    front: &'static [u8],
    left: usize,
    fails: bool,
    calls: usize,
}

impl Read for Blank {
    fn read(&mut self, buf: &mut [u8]) -> io::Result<usize> {
        self.calls += 1;
        if !self.front.is_empty() {
            let given = self.front.len().min(buf.len());
            let (first, rest) = self.front.split_at(given);
            buf[..given].copy_from_slice(first);
            self.front = rest;
            return Ok(given);
        }
        if self.left == 0 && self.fails {
            return Err(io::Error::from(ErrorKind::Interrupted));
        }
        let given = self.left.min(buf.len());
        buf[..given].fill(b'\n');
        self.left -= given;
        Ok(given)
    }
}

/// Takes so many bytes, and then fails.
struct Narrow {
    taken: Vec<u8>,
    left: usize,
}

impl Write for Narrow {
    fn write(&mut self, buf: &[u8]) -> io::Result<usize> {
        if self.left == 0 {
            return Err(io::Error::from(ErrorKind::Interrupted));
        }
        let most = buf.len().min(3).min(self.left);
        self.taken.extend_from_slice(&buf[..most]);
        self.left -= most;
        Ok(most)
    }

    fn flush(&mut self) -> io::Result<()> {
        Ok(())
    }
}

/// Takes the first 128 bytes, and takes no memory for them.
struct Fixed {
    bytes: [u8; 128],
    len: usize,
}

impl Write for Fixed {
    fn write(&mut self, buf: &[u8]) -> io::Result<usize> {
        let Some(room) = self.bytes.get_mut(self.len..) else {
            return Ok(0);
        };
        let most = buf.len().min(room.len());
        room[..most].copy_from_slice(&buf[..most]);
        self.len += most;
        Ok(most)
    }

    fn flush(&mut self) -> io::Result<()> {
        Ok(())
    }
}

/// What a script ends with and prints if so many of its allocations work, and no more.
fn ended(works: u32, text: &[u8]) -> (Result<(), ScriptFault>, Vec<u8>) {
    let mut fixed = Fixed {
        bytes: [0; 128],
        len: 0,
    };
    let result = refusing::after(works, || script(Global, text, &mut fixed));
    (result, fixed.bytes[..fixed.len].to_vec())
}

/// Until enough allocations work the answer is NoMemory, with nothing written or with the first line. Then the whole text is.
fn finds_no_memory_until_it_ends(text: &[u8], whole: &[u8]) {
    for works in 0.. {
        let (result, out) = ended(works, text);
        if result.is_ok() {
            assert_eq!((works > 0, out.as_slice()), (true, whole));
            return;
        }
        assert_eq!(result, Err(ScriptFault::NoMemory));
        assert!(out.is_empty() || out == whole[..33], "{works} work");
    }
}

/// Without memory for the text, the image or the medium nothing is written; for an offered file, the lines before it.
#[test]
fn refused_allocation_in_a_script() {
    let text = b"show\noffer ffffffffffffffffffff00015546441071c8510c\ngo pass 13\n";
    let whole = b"state appIDLE status OK image 00\nreport installed\nimage ffffffff\n";
    finds_no_memory_until_it_ends(text, whole);
}

/// If a tear finds no memory, the script stops at its line, also if no session is live.
#[test]
fn refused_allocation_of_a_tear() {
    let whole = b"state appIDLE status OK image 00\nrefused NoHost\nimage 00\n";
    finds_no_memory_until_it_ends(b"show\ngo cut 0 a5\n", whole);
}

/// If a part of an upload finds no memory, the session ends, and the script goes on.
#[test]
fn refused_allocation_in_an_upload() {
    let refused = b"report no-memory\nrefused NoHost\nimage 00\n";
    let mut refusals = 0;
    for works in 0.. {
        let (result, out) = ended(works, b"upload\ngo pass 6\n");
        if result.is_err() {
            assert_eq!((result, out.len()), (Err(ScriptFault::NoMemory), 0));
        } else if out == refused {
            refusals += 1;
        } else {
            assert_eq!(out, b"report uploaded 00\nimage 00\n");
            assert!(refusals > 0);
            return;
        }
    }
}

/// A script from this reader ends like this, and prints this.
fn ends_after(blank: &mut Blank, end: Result<(), ScriptFault>, out: &str) {
    let mut seen = Vec::new();
    assert_eq!(script(Global, blank, &mut seen), end);
    assert_eq!(seen.as_slice(), out.as_bytes());
}

const SHOWN: &str = "state appIDLE status OK image 00\n";

/// What a reader gives, and whether it fails then; how its script ends, what it prints, and how often the reader is called.
type Limit = (
    &'static [u8],
    usize,
    bool,
    Result<(), ScriptFault>,
    &'static str,
    usize,
);

#[rustfmt::skip]
static LIMITS: [Limit; 9] = [
    (b"", 16_777_216, false, Ok(()), "image 00\n", 1_025),
    (b"", 16_777_217, false, Err(ScriptFault::TooLarge), "", 1_025),
    (b"", 16_777_217, true, Err(ScriptFault::TooLarge), "", 1_025),
    (b"", 16_777_216, true, Err(ScriptFault::Read), "", 1_025),
    (b"", 0, true, Err(ScriptFault::Read), "", 1),
    (b"show\n", 16_777_212, false, Err(ScriptFault::TooLarge), SHOWN, 1_025),
    (b"show\n", 0, true, Err(ScriptFault::Read), SHOWN, 2),
    (b"show\nsho", 0, true, Err(ScriptFault::Read), SHOWN, 2),
    (b"?\n", 16_777_216, true, Err(ScriptFault::BadLine(1)), "", 1),
];

/// No read is made after the reader's end, after its error, or after the byte past the limit. The lines before that
/// have run.
#[test]
fn texts_have_a_limit() {
    for (front, left, fails, end, out, calls) in &LIMITS {
        let mut blank = Blank {
            front: *front,
            left: *left,
            fails: *fails,
            calls: 0,
        };
        ends_after(&mut blank, *end, *out);
        assert_eq!(blank.calls, *calls);
    }
}

/// A writer that takes only as many bytes as this front has takes this front.
fn fails_at(text: &[u8], front: &[u8]) {
    let mut narrow = Narrow {
        taken: Vec::new(),
        left: front.len(),
    };
    let end = script(Global, text, &mut narrow);
    assert_eq!(end, Err(ScriptFault::Write));
    assert_eq!(narrow.taken.as_slice(), front);
}

/// The writer fails at each byte in turn, and a prefix of the text is written.
#[test]
fn writers_fail_anywhere() -> Outcome {
    let text = text_of("show / go pass 2 / offer W / offer W / go pass 13 / show");
    let mut whole = Vec::new();
    assert_eq!(script(Global, text.as_slice(), &mut whole), Ok(()));
    for left in 0..whole.len() {
        fails_at(&text, &whole[..left]);
    }
    Ok(())
}
