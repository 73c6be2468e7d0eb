//! Flash that is not erased where a row programs it: the row ends, and nothing is written.

use super::board::Board;
use super::chip::{Chip, KINDS};
use super::dnload;
use super::rows::{Went, idle, send};
use super::trouble::Trouble;
use fustrelan::asks::Reply;
use fustrelan::device::Answer;
use unit::Outcome;
use unit::requests::GET_STATUS;

/// A device after a block of 20 bytes in units of 16, 4 of which it holds back.
fn after_a_block(chip: &mut Chip) -> Outcome<Board> {
    let mut board = idle(chip, (0, 0))?;
    let (setup, mut went) = (dnload(0, 20), Went::new(Trouble::None));
    send(&mut board, chip, (&setup, &[0x66; 20]), &mut went);
    assert_eq!((board.device.put_end, board.device.held_len), (20, 4));
    Ok(board)
}

/// It takes a second block of 20 bytes, and this many bytes behind the first unit a byte is not erased then: what GETSTATUS comes to.
fn with_a_spoilt_byte(chip: &mut Chip, behind: usize) -> Outcome<(Reply, [u8; 6])> {
    let mut board = after_a_block(chip)?;
    chip.turn(chip.image_at(true) + 16 + behind, 0x80);
    let mut out = [0; 1500];
    // In dfuDNLOAD-IDLE no request asks for it.
    let answer = board.answer(&chip.flash, &GET_STATUS, &mut out);
    assert_eq!((answer, out[4]), ((Answer::Bytes, 6), 5));
    let taken = board.handle(&chip.flash, &dnload(1, 20), &[0x77; 20], &mut out);
    assert_eq!(taken, Ok(Reply::Answered(Answer::Ack, 0)));
    let handled = board.handle(&chip.flash, &GET_STATUS, &[], &mut out);
    let Ok(reply) = handled else {
        panic!("it is refused: {handled:?}");
    };
    assert!(reply == Reply::Asks || board.gives_none(&chip.flash));
    Ok((reply, std::array::from_fn(|i| out[i])))
}

#[test]
fn a_row_ends_where_it_would_program_what_is_not_erased() -> Outcome {
    for behind in [0, 15, 16, 23] {
        let mut chip = Chip::shipped(KINDS[1])?;
        let (reply, out) = with_a_spoilt_byte(&mut chip, behind)?;
        // errVERIFY in dfuERROR.
        assert_eq!(reply, Reply::Answered(Answer::Bytes, 6));
        assert_eq!(out, [7, 0, 0, 0, 10, 0]);
    }
    Ok(())
}

#[test]
fn bytes_that_it_does_not_program_are_not_asked_for() -> Outcome {
    for (kind, behind) in [(KINDS[1], 24), (KINDS[1], 1000), (KINDS[0], 0)] {
        let mut chip = Chip::shipped(kind)?;
        assert_eq!(with_a_spoilt_byte(&mut chip, behind)?.0, Reply::Asks);
    }
    Ok(())
}
