//! A script from a reader that fails, one to a writer that fails, and one without a line.

use dfu::command::run_text;
use dfu::output::Exit;
use fustrelan::memory::Global;
use unit_program::readers::{Failing, Refusing};

#[test]
fn runs_a_script_that_cannot_be_read() {
    let mut out = Vec::new();
    assert_eq!(run_text(Global, Failing, &mut out), Exit::Fault);
    assert_eq!(out.as_slice(), &b"fault Read\n"[..]);
}

/// A writer that fails after some bytes: a prefix is written, and nothing more is tried.
#[test]
fn stops_a_script_at_a_writer_that_fails() {
    let mut out = Refusing {
        left: 3,
        calls_after: 0,
    };
    assert_eq!(run_text(Global, &b"show\n"[..], &mut out), Exit::Fault);
    assert_eq!((out.left, out.calls_after), (0, 1));
}

/// A script without a line prints only the line of the image.
#[test]
fn runs_an_empty_script() {
    let mut out = Vec::new();
    assert_eq!(run_text(Global, &b""[..], &mut out), Exit::Done);
    assert_eq!(out.as_slice(), &b"image 00\n"[..]);
}
