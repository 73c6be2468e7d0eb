//! What is noted of the active image after a download, and after one whose commit failed.

use super::board::Board;
use super::chip::{Chip, Fate, KINDS, Kind};
use super::rows::{install, shipped};
use super::trouble::Trouble;
use fustrelan::asks::Noted;
use fustrelan::device::Answer;
use unit::Outcome;
use unit::requests::CLR_STATUS;

/// The register over the image `00`, and over 48 and 2,000 bytes 77h: those of a CRC program, whose last step turns each bit, turned back.
const OF_00: u32 = 0x2dfd_1072;
const OF_48: u32 = 0xf93d_2190;
const OF_2000: u32 = 0x48eb_6a12;

/// The header of an image of this generation, length and register.
fn header(generation: u8, len: u32, register: u32) -> [u8; 16] {
    let [a, b, c, d] = len.to_le_bytes();
    let [e, f, g, h] = register.to_le_bytes();
    [generation, 2, 0, 0, a, b, c, d, e, f, g, h, 0, 0, 0, 0]
}

/// What is noted of the image of a download into this slot, with this generation.
fn new_note(kind: Kind, second: bool, generation: u8) -> Noted {
    let (len, register) = if kind.sector == 0 {
        (48, OF_48)
    } else {
        (2000, OF_2000)
    };
    Noted {
        second,
        header: header(generation, len, register),
    }
}

/// What is noted of the image `00` that the chip is shipped with.
fn old_note() -> Noted {
    Noted {
        second: false,
        header: header(0, 1, OF_00),
    }
}

/// This is noted, and a device that gets power notes it too.
fn notes(board: &Board, chip: &Chip, want: Noted) {
    let device = &board.device;
    assert_eq!(device.noted, want);
    let found = Noted::find(&chip.flash, device.unit, device.sector);
    assert_eq!(found, Some(want));
}

#[test]
fn a_download_is_noted() -> Outcome {
    for kind in KINDS {
        for times in [(0, 0), (5, 5)] {
            let (mut chip, mut board) = shipped(kind, times)?;
            notes(&board, &chip, old_note());
            let mut second = true;
            for generation in 1..6 {
                let went = install(&mut board, &mut chip, Trouble::None);
                assert_eq!(went.status, [0, 0, 0, 0, 2, 0]);
                notes(&board, &chip, new_note(kind, second, generation));
                second = !second;
            }
        }
    }
    Ok(())
}

/// Whether the new image is active after this trouble with a piece of its commit: once its gate reads open, which it does if the
/// gate's piece was programmed in part, or the erase of its sector was torn.
fn opens(kind: Kind, piece: u32, fate: Fate) -> bool {
    let left = kind.pieces - piece;
    left == 1 && fate != Fate::Lost || kind.sector > 0 && left == 2 && fate == Fate::Torn
}

/// A commit fails at this piece, and then a whole download comes.
fn fails_and_goes_on(board: &mut Board, chip: &mut Chip, trouble: Trouble, opened: bool) {
    let kind = chip.kind;
    let went = install(board, chip, trouble);
    assert_eq!(went.status[4], 10);
    let note = if opened {
        new_note(kind, true, 1)
    } else {
        old_note()
    };
    notes(board, chip, note);
    let mut out = [0; 1500];
    assert_eq!(
        board.answer(&chip.flash, &CLR_STATUS, &mut out),
        (Answer::Ack, 0)
    );
    let went = install(board, chip, Trouble::None);
    assert_eq!(went.status, [0, 0, 0, 0, 2, 0]);
    let note = if opened {
        new_note(kind, false, 2)
    } else {
        new_note(kind, true, 1)
    };
    notes(board, chip, note);
    assert!(chip.is_new());
}

#[test]
fn a_commit_that_failed_notes_what_is_active() -> Outcome {
    for kind in KINDS {
        for times in [(0, 0), (5, 5)] {
            for piece in kind.before..kind.pieces {
                for fate in [Fate::Lost, Fate::Torn, Fate::Done] {
                    let (mut chip, mut board) = shipped(kind, times)?;
                    let opened = opens(kind, piece, fate);
                    let trouble = Trouble::Fails(piece, fate);
                    fails_and_goes_on(&mut board, &mut chip, trouble, opened);
                }
                let (mut chip, mut board) = shipped(kind, times)?;
                fails_and_goes_on(&mut board, &mut chip, Trouble::Lies(piece), false);
            }
        }
    }
    Ok(())
}
