//! A note that is not true of the flash.

use super::board::Board;
use super::chip::{Chip, KINDS};
use super::faded::{first_write_is_not_handed_out, noted_first, renewed};
use super::rows::{Went, idle, install, send, shipped};
use super::trouble::Trouble;
use super::{config, dnload};
use fustrelan::asks::{Refusal, Reply};
use fustrelan::device::Answer;
use unit::Outcome;
use unit::requests::{CLR_STATUS, DETACH, GET_STATE, GET_STATUS, UPLOAD};

/// GET_DESCRIPTOR, which is no request of DFU.
const GET_DESCRIPTOR: [u8; 8] = [0x80, 6, 0, 1, 0, 0, 18, 0];

/// Each call is refused because the noted image is missing, and nothing changes.
fn is_refused(board: &mut Board, chip: &Chip) {
    board.spoil();
    let before = board.kept();
    let mut out = [0x5a; 1500];
    for setup in [
        GET_STATUS,
        GET_STATE,
        UPLOAD,
        CLR_STATUS,
        DETACH,
        dnload(1, 0),
        GET_DESCRIPTOR,
    ] {
        let handled = board.handle(&chip.flash, &setup, &[], &mut out);
        assert_eq!(handled, Err(Refusal::NoMedium));
    }
    let handled = board.handle(&chip.flash, &dnload(0, 20), &[0x66; 20], &mut out);
    assert_eq!(handled, Err(Refusal::NoMedium));
    for ms in [0, 5, 0xffff_ffff] {
        assert_eq!(board.elapse(&chip.flash, ms), Err(Refusal::NoMedium));
    }
    assert_eq!(board.usb_reset(&chip.flash), Err(Refusal::NoMedium));
    assert!(board.kept() == before);
    assert!(out == [0x5a; 1500]);
}

/// Each byte of the header, there and as it is noted, the gate and the noted slot are changed, and changed back.
fn is_refused_for_each_change(board: &mut Board, chip: &mut Chip) {
    let second = board.device.noted.second;
    for byte in 0..16 {
        for bits in [0x01, 0x80, 0xff] {
            let at = chip.header_at(second) + byte;
            chip.turn(at, bits);
            is_refused(board, chip);
            chip.turn(at, bits);
        }
        board.device.noted.header[byte] ^= 0x10;
        is_refused(board, chip);
        board.device.noted.header[byte] ^= 0x10;
    }
    for bits in [0x01, 0x80, 0x5a, 0xa5, 0xff] {
        let at = chip.at(second);
        chip.turn(at, bits);
        is_refused(board, chip);
        chip.turn(at, bits);
    }
    board.device.noted.second = !second;
    is_refused(board, chip);
    board.device.noted.second = second;
}

#[test]
fn a_note_that_is_not_true_is_refused() -> Outcome {
    for kind in KINDS {
        let mut chip = Chip::shipped(kind)?;
        // In appIDLE, in dfuIDLE, with a block that is not written, with bytes held back, and after a download with both gates open.
        let mut board = Board::power_on(&chip, config(5, 5)?);
        is_refused_for_each_change(&mut board, &mut chip);
        let mut board = idle(&chip, (5, 5))?;
        is_refused_for_each_change(&mut board, &mut chip);
        let mut out = [0; 1500];
        let taken = board.handle(&chip.flash, &dnload(0, 20), &[0x66; 20], &mut out);
        assert_eq!(taken, Ok(Reply::Answered(Answer::Ack, 0)));
        is_refused_for_each_change(&mut board, &mut chip);
        let mut board = idle(&chip, (5, 5))?;
        let (setup, mut went) = (dnload(0, 20), Went::new(Trouble::None));
        send(&mut board, &mut chip, (&setup, &[0x66; 20]), &mut went);
        assert!(board.device.held_len == 4 || board.device.held_len == 20);
        is_refused_for_each_change(&mut board, &mut chip);
        let mut board = idle(&chip, (5, 5))?;
        let went = install(&mut board, &mut chip, Trouble::None);
        assert_eq!(went.status, [0, 0, 0, 0, 2, 0]);
        assert!(board.device.noted.second);
        is_refused_for_each_change(&mut board, &mut chip);
        // Changed back, it goes on.
        let went = install(&mut board, &mut chip, Trouble::None);
        assert_eq!(went.status, [0, 0, 0, 0, 2, 0]);
    }
    Ok(())
}

#[test]
fn a_note_of_the_other_image_is_read_and_not_written_by() -> Outcome {
    for kind in KINDS {
        for times in [(0, 0), (5, 5)] {
            let (chip, mut board) = renewed(kind, times)?;
            assert!(chip.is_new());
            board.device.noted = noted_first(&chip);
            let mut out = [0x5a; 1500];
            let answer = board.answer(&chip.flash, &GET_STATUS, &mut out);
            assert_eq!(answer, (Answer::Bytes, 6));
            assert_eq!(out[..6], [0, 0, 0, 0, 2, 0]);
            // The old image is the one byte 00.
            let answer = board.answer(&chip.flash, &UPLOAD, &mut out);
            assert_eq!((answer, out[0]), ((Answer::Bytes, 1), 0x00));
            first_write_is_not_handed_out(&mut board, &chip, times);
            assert!(chip.is_new());
        }
    }
    Ok(())
}

#[test]
fn two_slots_with_one_header_are_read_and_not_written() -> Outcome {
    for kind in KINDS {
        let (mut chip, mut board) = shipped(kind, (0, 0))?;
        let half = chip.at(true);
        chip.flash.copy_within(..half, half);
        // Neither is one generation ahead, so no image is active.
        let mut out = [0x5a; 1500];
        for second in [true, false] {
            board.device.noted.second = second;
            let answer = board.answer(&chip.flash, &UPLOAD, &mut out);
            assert_eq!((answer, out[0]), ((Answer::Bytes, 1), 0x00));
        }
        first_write_is_not_handed_out(&mut board, &chip, (0, 0));
        board.device.noted.second = true;
        assert!(board.gives_none(&chip.flash));
    }
    Ok(())
}
