//! An image whose bytes change while its header stays. No request reads it; a device that gets power does.

use super::board::Board;
use super::chip::{Chip, KINDS, Kind};
use super::rows::{install, shipped};
use super::trouble::Trouble;
use super::{config, dnload};
use fustrelan::asks::{Asking, Noted, Reply, Sector};
use fustrelan::device::Answer;
use unit::Outcome;
use unit::requests::{ABORT, DETACH, GET_STATUS, UPLOAD};

/// What a device notes of this chip at power on.
fn found(chip: &Chip) -> Outcome<Option<Noted>> {
    let sector = Sector::new(chip.kind.sector).expect("no such sector");
    let device = Asking::power_on(config(0, 0)?, chip.kind.unit, sector, &chip.flash);
    Ok(device.map(|device| device.noted))
}

/// A chip with the image that it is shipped with in the first slot and a new one in the second, and the board that downloaded it.
pub fn renewed(kind: Kind, times: (u32, u32)) -> Outcome<(Chip, Board)> {
    let (mut chip, mut board) = shipped(kind, times)?;
    let _ = install(&mut board, &mut chip, Trouble::None);
    Ok((chip, board))
}

/// What is noted of the image in the first slot.
pub fn noted_first(chip: &Chip) -> Noted {
    Noted {
        second: false,
        header: chip.header(false),
    }
}

/// GETSTATUS is answered with the code OK and this state.
fn is_in(board: &mut Board, chip: &Chip, state: u8) {
    let mut out = [0; 1500];
    let answer = board.answer(&chip.flash, &GET_STATUS, &mut out);
    assert_eq!(answer, (Answer::Bytes, 6));
    assert_eq!(out[..6], [0, 0, 0, 0, state, 0]);
}

#[test]
fn an_only_image_fades() -> Outcome {
    for kind in KINDS {
        for (busy, manifest) in [(0, 0), (5, 5)] {
            let mut chip = Chip::shipped(kind)?;
            let mut board = Board::power_on(&chip, config(busy, manifest)?);
            let at = chip.image_at(false);
            chip.turn(at, 0x01);
            assert_eq!(found(&chip)?, None);
            is_in(&mut board, &chip, 0);
            let mut out = [0; 1500];
            let answer = board.answer(&chip.flash, &DETACH, &mut out);
            assert_eq!(answer, (Answer::Ack, 0));
            assert_eq!(board.usb_reset(&chip.flash), Ok(()));
            is_in(&mut board, &chip, 2);
            // The image is the one byte 00, and now 01.
            let answer = board.answer(&chip.flash, &UPLOAD, &mut out);
            assert_eq!((answer, out[0]), ((Answer::Bytes, 1), 0x01));
            let went = install(&mut board, &mut chip, Trouble::None);
            assert_eq!(went.status, [0, 0, 0, 0, 2, 0]);
            assert_eq!(went.pieces, kind.pieces);
            assert!(chip.is_new());
            assert_eq!(found(&chip)?, Some(board.device.noted));
        }
    }
    Ok(())
}

#[test]
fn a_new_image_fades_and_the_old_one_is_kept() -> Outcome {
    for kind in KINDS {
        for times in [(0, 0), (5, 5)] {
            let (mut chip, mut board) = renewed(kind, times)?;
            let at = chip.image_at(true);
            chip.turn(at, 0x01);
            let old = noted_first(&chip);
            assert_eq!(found(&chip)?, Some(old));
            is_in(&mut board, &chip, 2);
            let mut out = [0; 1500];
            let answer = board.answer(&chip.flash, &UPLOAD, &mut out);
            assert_eq!(answer, (Answer::Bytes, 8));
            assert_eq!(out[..8], [0x76, 0x77, 0x77, 0x77, 0x77, 0x77, 0x77, 0x77]);
            let answer = board.answer(&chip.flash, &ABORT, &mut out);
            assert_eq!(answer, (Answer::Ack, 0));
            is_in(&mut board, &chip, 2);
            // The first write of a download would close the gate of the only image that is whole.
            first_write_is_not_handed_out(&mut board, &chip, times);
            assert_eq!(found(&chip)?, Some(old));
        }
    }
    Ok(())
}

/// A device in dfuIDLE takes a block, and its first write is not handed out.
pub fn first_write_is_not_handed_out(board: &mut Board, chip: &Chip, times: (u32, u32)) {
    let (busy, _) = times;
    let mut out = [0; 1500];
    let taken = board.handle(&chip.flash, &dnload(0, 20), &[0x66; 20], &mut out);
    assert_eq!(taken, Ok(Reply::Answered(Answer::Ack, 0)));
    let mut asks = board.handle(&chip.flash, &GET_STATUS, &[], &mut out);
    if busy > 0 {
        assert_eq!(asks, Ok(Reply::Answered(Answer::Bytes, 6)));
        asks = board.elapse(&chip.flash, busy);
    }
    assert_eq!(asks, Ok(Reply::Asks));
    assert!(board.gives_none(&chip.flash));
}
