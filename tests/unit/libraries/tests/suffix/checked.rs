//! What `read`, `read_small` and `check` answer for files and for bytes that are nearly a file, however a reader cuts them.

use super::files::{DFUSE, DFUSE_DAMAGED, FOUR_ONES, GOOD, UNSET, complement, turned};
use super::readers::{Pieces, in_pieces};
use fustrelan::memory::Global;
use fustrelan::suffix::{File, SuffixFault, Summary, add, check, read, read_small};
use fustrelan::wire::Ids;
use unit::Outcome;

/// `check` returns this for a reader, and asks it so often.
fn checks(mut reader: Pieces<'_>, answer: Result<Summary, SuffixFault>, calls: usize) {
    let (step, stop) = (reader.step, reader.calls.stop);
    let said = check(&mut reader);
    assert_eq!(
        (said, reader.calls.made),
        (answer, calls),
        "{step} at a time, stopped at call {stop}"
    );
}

/// `check` returns this for these bytes in pieces of 1 to 20. It asks once more at their end.
fn checks_in_pieces(bytes: &[u8], answer: Result<Summary, SuffixFault>) {
    for step in 1..=20usize {
        checks(
            in_pieces(bytes, step),
            answer,
            bytes.len().div_ceil(step) + 1,
        );
    }
}

/// These bytes are refused with this fault, whole and in pieces.
fn refused(bytes: &[u8], fault: SuffixFault) {
    assert_eq!(
        (read(bytes).err(), read_small(bytes).err()),
        (Some(fault), Some(fault)),
        "of {bytes:?}"
    );
    checks_in_pieces(bytes, Err(fault));
}

fn summary(payload: u32, suffix: u8, ids: Ids, crc: u32) -> Summary {
    Summary {
        payload,
        suffix,
        ids,
        dfu: 0x0100,
        crc,
    }
}

/// These bytes are read as this file.
fn reads(bytes: &[u8], read: Result<File<'_>, SuffixFault>, known: Summary) {
    let Ok(file) = read else {
        panic!("refused {bytes:?}");
    };
    let payload = file.payload();
    assert!(bytes.starts_with(payload), "of {bytes:?}");
    assert_eq!(payload.len(), known.payload as usize, "of {bytes:?}");
    assert_eq!(
        (file.suffix(), file.ids(), file.dfu()),
        (known.suffix, known.ids, known.dfu),
        "of {bytes:?}"
    );
}

#[test]
fn what_known_files_say() {
    for (bytes, payload, suffix, ids, crc) in &GOOD {
        let known = summary(*payload, *suffix, *ids, *crc);
        reads(bytes, read(bytes), known);
        reads(bytes, read_small(bytes), known);
        checks_in_pieces(bytes, Ok(known));
    }
}

/// The result for the first bytes of `FOUR_ONES`.
fn of_front(len: usize) -> Result<Summary, SuffixFault> {
    match len {
        0..=15 => Err(SuffixFault::TooShort),
        16..=19 => Err(SuffixFault::NoSignature),
        _ => Ok(summary(4, 16, UNSET, 0x0c51_c871)),
    }
}

#[test]
fn fronts_of_a_file() {
    for len in 0..20usize {
        if let Err(fault) = of_front(len) {
            refused(&FOUR_ONES[..len], fault);
        }
    }
}

/// The fault of `FOUR_ONES` with this bit of this byte turned. Bytes 12 to 14 are the signature.
/// Byte 15 is bLength, 16, which stays between 16 and 20 if one of its low three bits is turned.
fn of_turned(at: usize, bit: u32) -> SuffixFault {
    match (at, bit) {
        (12..=14, _) => SuffixFault::NoSignature,
        (15, 3..=7) => SuffixFault::BadLength,
        _ => SuffixFault::BadCrc,
    }
}

#[test]
fn each_bit_of_a_file_turned() {
    for at in 0..20usize {
        for bit in 0..8u32 {
            refused(&turned(at, bit), of_turned(at, bit));
        }
    }
}

#[test]
fn first_faults_of_known_bytes() {
    refused(&complement(), SuffixFault::BadCrc);
    refused(&DFUSE, SuffixFault::DfuSe);
    refused(&DFUSE_DAMAGED, SuffixFault::DfuSe);
}

/// In place of each of its answers in turn, also the end, the reader fails, or gives nothing and
/// would go on after it. It is not asked again.
#[test]
fn reader_that_stops() {
    for fails in [true, false] {
        for step in 1..=20usize {
            let calls = 20usize.div_ceil(step) + 1;
            for stop in 0..calls {
                let mut reader = in_pieces(&FOUR_ONES, step);
                reader.calls.stop = stop;
                reader.calls.fails = fails;
                let answer = if fails {
                    Err(SuffixFault::Read)
                } else {
                    of_front(stop * step)
                };
                checks(reader, answer, stop + 1);
            }
        }
    }
}

/// The suffix of 16,777,200 zeros, with its CRC by another program.
static ZEROS_SUFFIX: [u8; 16] = [
    0xff, 0xff, 0xff, 0xff, 0xff, 0xff, 0x00, 0x01, 0x55, 0x46, 0x44, 0x10, 0xaf, 0x59, 0xe8, 0xfa,
];

/// The 1,025th call gives nothing, or the byte past the limit.
#[test]
fn files_at_and_past_the_limit() -> Outcome {
    let mut file = vec![0u8; 16_777_200];
    file.extend_from_slice(&ZEROS_SUFFIX);
    let known = summary(16_777_200, 16, UNSET, 0xfae8_59af);
    checks(in_pieces(&file, 16_384), Ok(known), 1_025);
    file.push(0);
    checks(in_pieces(&file, 16_384), Err(SuffixFault::TooLarge), 1_025);
    Ok(())
}

/// The pieces end before, at and after the end of the buffer of a read, 16,384 bytes.
#[test]
fn long_file_in_pieces() -> Outcome {
    let mut file = Vec::new();
    add(Global, &[0x5a; 70_000][..], UNSET, &mut file)?;
    let known = summary(70_000, 16, UNSET, 0x2675_8014);
    for (step, calls) in [(1usize, 70_017usize), (17, 4_120), (16_383, 6), (70_016, 6)] {
        checks(in_pieces(&file, step), Ok(known), calls);
    }
    Ok(())
}
