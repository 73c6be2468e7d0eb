//! What `gather` returns for readers that stop or give too much, and how often it asks them.

use super::readers::{Pieces, in_pieces};
use fustrelan::memory::Global;
use fustrelan::suffix::{GatherFault, gather};

/// `gather` returns this, and asks the reader so often.
fn gathers(mut reader: Pieces<'_>, limit: usize, answer: Result<&[u8], GatherFault>, calls: usize) {
    let (step, stop) = (reader.step, reader.calls.stop);
    let said = gather(Global, &mut reader, limit);
    let given = match &said {
        Ok(bytes) => Ok(bytes.as_slice()),
        Err(fault) => Err(*fault),
    };
    assert_eq!(
        (given, reader.calls.made),
        (answer, calls),
        "{step} at a time up to {limit}, stopped at call {stop}"
    );
}

/// Nine bytes, up to each limit. No call is made after the one that gives the byte past the limit.
#[test]
fn reader_of_more_than_the_limit() {
    for step in 1..=9usize {
        for limit in 0..9usize {
            let reader = in_pieces(b"123456789", step);
            gathers(reader, limit, Err(GatherFault::TooLarge), limit / step + 1);
        }
        let reader = in_pieces(b"123456789", step);
        gathers(reader, 9, Ok(b"123456789"), 9usize.div_ceil(step) + 1);
    }
}

/// In place of each of its answers in turn, also the end, the reader fails, or gives nothing and
/// would go on after it. It is not asked again.
#[test]
fn reader_that_stops() {
    let bytes = b"123456789";
    for step in 1..=9usize {
        for stop in 0..=9usize.div_ceil(step) {
            let mut reader = in_pieces(bytes, step);
            reader.calls.stop = stop;
            let front = &bytes[..(stop * step).min(9)];
            gathers(reader, 9, Ok(front), stop + 1);
            let mut reader = in_pieces(bytes, step);
            reader.calls.stop = stop;
            reader.calls.fails = true;
            gathers(reader, 9, Err(GatherFault::Read), stop + 1);
        }
    }
}
