//! A medium whose sectors are erased: whole media byte for byte, and every fault of an install against a plain model.

use super::{bytes_of, format, install, reopened, spread};
use fustrelan::memory::Global;
use fustrelan::slots::{Faulty, PutFault, SimMedium, Slots, Unit};
use unit::Outcome;

/// Each slot has a sector for its gate, one for its header and one of data, written in units of 256. The first slot begins at 0,
/// the second at 12,288.
const SECTOR: u32 = 4096;
const SIZE: u32 = 6 * 4096;

/// Formatted with the one byte 00h: runs of a byte, each with its length.
#[rustfmt::skip]
static FORMATTED: [(u8, usize); 15] = [
    (0xa5, 1), (0, 255), (0xff, 3840),
    (0, 1), (2, 1), (0, 2), (1, 1), (0, 3), (0x72, 1), (0x10, 1), (0xfd, 1), (0x2d, 1), (0, 244), (0xff, 3840),
    (0, 256),
];

/// Then FFh four times is installed.
#[rustfmt::skip]
static INSTALLED: [(u8, usize); 11] = [
    (0xff, 3840),
    (0xa5, 1), (0, 255), (0xff, 3840),
    (1, 1), (2, 1), (0, 2), (4, 1), (0, 251), (0xff, 3844), (0, 252),
];

/// What one write leaves if it works: a sector of FFh, or a unit with these bytes at its front and zeros after them.
#[derive(Clone, Copy)]
enum Step {
    Erase(u32),
    Write(u32, &'static [u8]),
}

/// The writes of an install of 1, 2, 3 over both media: the spare is the first slot, and its gate is open.
#[rustfmt::skip]
static STEPS: [Step; 7] = [
    Step::Erase(0),
    Step::Erase(8192), Step::Write(8192, &[1, 2, 3]),
    Step::Erase(4096), Step::Write(4096, &[2, 2, 0, 0, 3, 0, 0, 0, 0xe2, 0x7f, 0x43, 0xaa]),
    Step::Erase(0), Step::Write(0, &[0xa5]),
];

static TEARS: [&[u8]; 5] = [&[], &[0xa5], &[0xff], &[0x00], &[0xa5; 4096]];

/// The bytes of the medium: these runs, and FFh after them.
fn whole<'a>(runs: impl IntoIterator<Item = &'a (u8, usize)>) -> Vec<u8> {
    let mut bytes = spread(runs);
    bytes.resize(SIZE as usize, 0xff);
    bytes
}

/// A store on it, with the image `00`.
fn made() -> Outcome<Slots<SimMedium>> {
    format(SimMedium::with_sectors(Global, SIZE, Unit::U256, SECTOR)?)
}

/// What a step writes: so many bytes from there on.
fn written(step: Step) -> (usize, Vec<u8>) {
    match step {
        Step::Erase(at) => (at as usize, vec![0xff; SECTOR as usize]),
        Step::Write(at, front) => {
            let mut bytes = front.to_vec();
            bytes.resize(256, 0);
            (at as usize, bytes)
        }
    }
}

/// The fault that a run is armed with.
#[derive(Clone, Copy, PartialEq, Eq)]
enum Kind {
    Fails,
    Cut,
    Lies,
}

/// What the model has after the steps up to the fault, and how the call that met it answers.
fn play(model: &mut [u8], works: usize, tear: &[u8], kind: Kind) -> Option<PutFault> {
    for (number, step) in STEPS.iter().enumerate() {
        let (at, bytes) = written(*step);
        let place = at..at + bytes.len();
        if number != works {
            model[place].copy_from_slice(&bytes);
            continue;
        }
        let torn = &tear[..tear.len().min(bytes.len())];
        model[at..at + torn.len()].copy_from_slice(torn);
        if kind != Kind::Lies {
            return Some(PutFault::Failed);
        }
        if model[place] != bytes {
            return Some(PutFault::NotVerified);
        }
    }
    None
}

/// The first slot has the new image if its gate is open and its header is written; its data is written before that.
fn has_new_image(bytes: &[u8]) -> bool {
    bytes[0] == 0xa5 && bytes[4096] == 2 && bytes[4096 + 4] == 3
}

/// Installs 1, 2, 3 on a medium on which so many writes work, and holds its bytes and its image against the model.
fn try_fault(works: u32, tear: &[u8], kind: Kind) -> Outcome {
    let mut slots = made()?;
    install(&mut slots, &[0xff; 4])?;
    let mut model = whole(FORMATTED.iter().chain(&INSTALLED));
    assert_eq!(bytes_of(slots.medium()), model);
    match kind {
        Kind::Fails => slots.arm(works, tear, false),
        Kind::Cut => slots.arm(works, tear, true),
        Kind::Lies => slots.arm_lie(works, tear),
    }
    let answer = install(&mut slots, &[1, 2, 3]);
    let fault = play(&mut model, works as usize, tear, kind);
    assert_eq!(answer.err(), fault);
    let mut medium = slots.into_medium();
    medium.disarm();
    assert_eq!(bytes_of(&medium), model);
    let slots = reopened(medium)?;
    let is_new = has_new_image(&model);
    assert_eq!(slots.active_len(), if is_new { 3 } else { 4 });
    assert!(fault.is_some() || is_new);
    Ok(())
}

#[test]
fn format_and_an_install_leave_these_bytes() -> Outcome {
    let mut slots = made()?;
    assert_eq!(slots.capacity(), 4096);
    assert_eq!(bytes_of(slots.medium()), whole(&FORMATTED));
    install(&mut slots, &[0xff; 4])?;
    let installed = whole(FORMATTED.iter().chain(&INSTALLED));
    assert_eq!(bytes_of(slots.medium()), installed);
    Ok(())
}

#[test]
fn every_fault_of_an_install_leaves_what_the_model_does() -> Outcome {
    for works in 0..8 {
        for tear in TEARS {
            for kind in [Kind::Fails, Kind::Cut, Kind::Lies] {
                try_fault(works, tear, kind)?;
            }
        }
    }
    Ok(())
}

/// A medium of which the data of a slot is no whole number of sectors, or that has sectors of another size, is refused.
#[test]
fn sectors_have_to_fit() -> Outcome {
    for (size, sector) in [
        (SIZE - 512, SECTOR),
        (SIZE, 128),
        (SIZE, 3000),
        (6 * 524_288, 524_288),
        (SIZE, 8192),
    ] {
        let medium = SimMedium::with_sectors(Global, size, Unit::U256, sector)?;
        assert!(Slots::format(medium, &[0]).is_err());
    }
    let largest = SimMedium::with_sectors(Global, 6 * 262_144, Unit::U256, 262_144)?;
    assert!(Slots::format(largest, &[0]).is_ok());
    Ok(())
}
