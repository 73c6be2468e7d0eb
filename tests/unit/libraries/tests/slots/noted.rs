//! What a simulated medium notes of its writes.

use super::{format, formatted, install};
use fustrelan::memory::Global;
use fustrelan::slots::{PutFault, SimMedium, Slots, Unit, WriteEnd};
use unit::Outcome;

/// A write: whether it erased, where, how many bytes, and how it ended.
type Wanted = (bool, u32, u32, WriteEnd);

/// The last writes of a store's medium are these.
fn assert_last(slots: &Slots<SimMedium>, wanted: &[Wanted]) {
    let notes = slots.medium().noted().notes.as_slice();
    let last = &notes[notes.len() - wanted.len()..];
    for (note, wanted) in last.iter().zip(wanted) {
        assert_eq!((note.erases, note.at, note.len, note.end), *wanted);
    }
}

/// An install over both slots of a medium with sectors, whose second slot begins at 12,288.
#[test]
fn erases_and_writes_are_noted() -> Outcome {
    let mut slots = format(SimMedium::with_sectors(Global, 6 * 4096, Unit::U256, 4096)?)?;
    install(&mut slots, &[0xff; 4])?;
    install(&mut slots, &[1, 2, 3])?;
    assert_last(
        &slots,
        &[
            (true, 0, 4096, WriteEnd::Worked),
            (true, 8192, 4096, WriteEnd::Worked),
            (false, 8192, 256, WriteEnd::Worked),
            (true, 4096, 4096, WriteEnd::Worked),
            (false, 4096, 256, WriteEnd::Worked),
            (true, 0, 4096, WriteEnd::Worked),
            (false, 0, 256, WriteEnd::Worked),
        ],
    );
    Ok(())
}

/// Puts four bytes FFh after those that were put.
fn put_four(slots: &mut Slots<SimMedium>) -> Result<(), PutFault> {
    let at = slots.put_end();
    slots.put(at, &[0xff; 4])
}

/// The second of two writes lies, and in the next install the first one fails.
#[test]
fn lies_and_failures_are_noted() -> Outcome {
    let mut slots = formatted()?;
    slots.begin()?;
    slots.arm_lie(1, &[0xaa]);
    put_four(&mut slots)?;
    assert_eq!(put_four(&mut slots), Err(PutFault::NotVerified));
    assert_last(
        &slots,
        &[
            (false, 128, 4, WriteEnd::Worked),
            (false, 132, 4, WriteEnd::Lied),
        ],
    );
    slots.begin()?;
    slots.arm(0, &[], false);
    assert_eq!(put_four(&mut slots), Err(PutFault::Failed));
    assert_last(&slots, &[(false, 128, 4, WriteEnd::Failed)]);
    Ok(())
}

/// Of twenty writes the last sixteen are kept, and all are counted.
#[test]
fn sixteen_writes_are_kept() -> Outcome {
    let mut slots = formatted()?;
    slots.begin()?;
    let before = slots.medium().noted().count;
    for byte in 0..20u8 {
        let at = slots.put_end();
        slots.put(at, &[byte])?;
    }
    let noted = slots.medium().noted();
    assert_eq!((noted.count - before, noted.notes.len()), (20, 16));
    assert_eq!((noted.notes[0].at, noted.notes[0].len), (132, 1));
    assert_last(&slots, &[(false, 147, 1, WriteEnd::Worked)]);
    Ok(())
}
