//! What `add` writes, what is written if it fails, and how often it calls its reader and its writer.

use super::files::{
    DFUSE, DFUSE_DAMAGED, DIGITS, EMPTY, FOUR_ONES, LONG_SUFFIX, NO_IDS, PRODUCT, UNSET, ZEROS,
};
use super::readers::{Pieces, in_pieces};
use super::writers::{Narrow, taking};
use fustrelan::memory::Global;
use fustrelan::suffix::{SuffixFault, add, read};
use fustrelan::wire::Ids;
use std::io;
use unit::{Outcome, refusing};

/// `add` returns this, and calls the reader and the writer so often. At Ok the whole file is written,
/// and else this front of it.
fn adds(
    mut reader: Pieces<'_>,
    mut writer: Narrow,
    ids: Ids,
    answer: Result<u32, SuffixFault>,
    out: &[u8],
    calls: (usize, usize),
) {
    let (step, stop) = (writer.step, writer.calls.stop.min(reader.calls.stop));
    let said = add(Global, &mut reader, ids, &mut writer);
    assert_eq!(
        (said, (reader.calls.made, writer.calls.made)),
        (answer, calls),
        "{step} at a time, stopped at call {stop}"
    );
    assert_eq!(writer.taken.as_slice(), out);
}

/// Payloads, identifiers, and the files that are made of them.
static KNOWN: [(&[u8], Ids, &[u8]); 4] = [
    (b"123456789", PRODUCT, &DIGITS),
    (&[0xff; 4], UNSET, &FOUR_ONES),
    (&[0xff; 4], ZEROS, &NO_IDS),
    (b"", UNSET, &EMPTY),
];

#[test]
fn files_of_known_payloads() {
    for (payload, ids, file) in &KNOWN {
        for step in 1..=25usize {
            let calls = (payload.len().div_ceil(step) + 1, file.len().div_ceil(step));
            adds(
                in_pieces(payload, step),
                taking(step),
                *ids,
                Ok(file.len() as u32),
                file,
                calls,
            );
        }
    }
}

/// Files with a suffix, and files that are refused only for the bcdDFU of DfuSe.
static SUFFIXED: [&[u8]; 5] = [&FOUR_ONES, &EMPTY, &LONG_SUFFIX, &DFUSE, &DFUSE_DAMAGED];

#[test]
fn files_that_have_a_suffix() {
    for file in &SUFFIXED {
        adds(
            in_pieces(file, 100),
            taking(100),
            PRODUCT,
            Err(SuffixFault::AlreadySuffixed),
            &[],
            (2, 0),
        );
    }
}

/// A file with a zero in its signature, its bLength or its dwCRC is a payload as a whole.
#[test]
fn files_with_a_wrong_suffix() -> Outcome {
    for at in 12..20usize {
        let mut changed = FOUR_ONES;
        changed[at] = 0;
        let mut out = Vec::new();
        let said = add(Global, &changed[..], PRODUCT, &mut out);
        assert_eq!(said, Ok(36), "byte {at}");
        assert!(out.starts_with(&changed), "byte {at}");
        assert_eq!(read(&out)?.payload().len(), 20, "byte {at}");
    }
    Ok(())
}

/// In place of each of its answers in turn, the writer fails, or takes nothing, and would go on
/// after it. It is not called again.
#[test]
fn writer_that_stops() {
    for fails in [true, false] {
        for step in 1..=25usize {
            for stop in 0..25usize.div_ceil(step) {
                let mut writer = taking(step);
                writer.calls.stop = stop;
                writer.calls.fails = fails;
                adds(
                    in_pieces(b"123456789", 9),
                    writer,
                    PRODUCT,
                    Err(SuffixFault::Write),
                    &DIGITS[..stop * step],
                    (2, stop + 1),
                );
            }
        }
    }
}

/// The reader fails in place of each of its answers in turn, also the end. Nothing is written then,
/// and the writer was never called.
#[test]
fn reader_that_fails() {
    for step in 1..=9usize {
        for stop in 0..=9usize.div_ceil(step) {
            let mut reader = in_pieces(b"123456789", step);
            reader.calls.stop = stop;
            reader.calls.fails = true;
            adds(
                reader,
                taking(9),
                PRODUCT,
                Err(SuffixFault::Read),
                &[],
                (stop + 1, 0),
            );
        }
    }
}

/// The 1,024th call gives the byte past the limit, and is the last.
#[test]
fn payloads_at_and_past_the_limit() -> Outcome {
    let zeros = vec![0u8; 16_777_201];
    let mut reader = in_pieces(&zeros, 16_384);
    let mut nowhere = io::sink();
    let said = add(Global, &mut reader, PRODUCT, &mut nowhere);
    assert_eq!(
        (said, reader.calls.made),
        (Err(SuffixFault::TooLarge), 1_024)
    );
    let mut reader = in_pieces(&zeros[1..], 16_384);
    let said = add(Global, &mut reader, PRODUCT, &mut nowhere);
    assert_eq!((said, reader.calls.made), (Ok(16_777_216), 1_025));
    Ok(())
}

/// If an allocation is refused, nothing is written; with enough memory the whole file is.
#[test]
fn refused_allocation_while_adding() {
    for works in 0.. {
        let mut room = [0u8; 25];
        let mut out = &mut room[..];
        let said = refusing::after(works, || add(Global, &b"123456789"[..], PRODUCT, &mut out));
        if said.is_ok() {
            assert_eq!((works > 0, said, out.len()), (true, Ok(25), 0));
            return;
        }
        assert_eq!((said, out.len()), (Err(SuffixFault::NoMemory), 25));
    }
}
