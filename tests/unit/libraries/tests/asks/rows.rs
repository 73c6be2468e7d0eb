//! Downloads whose writes the test carries out.

use super::board::Board;
use super::chip::{Chip, KINDS, Kind};
use super::trouble::Trouble;
use super::{config, dnload};
use fustrelan::asks::{Refusal, Reply};
use fustrelan::device::Answer;
use unit::Outcome;
use unit::requests::{DETACH, GET_STATUS};

/// A request and its body.
type Request<'a> = (&'a [u8; 8], &'a [u8]);

/// How a download with this trouble went: the last status asked for, how many pieces were asked for, and whether the power went.
pub struct Went {
    trouble: Trouble,
    pub status: [u8; 6],
    pub pieces: u32,
    pub over: bool,
}

impl Went {
    /// Nothing was asked for.
    pub fn new(trouble: Trouble) -> Went {
        Went {
            trouble,
            status: [0; 6],
            pieces: 0,
            over: false,
        }
    }
}

/// Carries out what is asked for. Each piece lies in the slot that is not noted.
fn serve(board: &mut Board, chip: &mut Chip, went: &mut Went) {
    let trouble = went.trouble;
    let mut out = [0; 1500];
    for _ in 0..40 {
        let mut bytes = [0; 256];
        let piece = board
            .next(&chip.flash, &mut bytes)
            .expect("nothing is asked for");
        assert!(chip.is_in(piece, !board.device.noted.second));
        assert_eq!(board.usb_reset(&chip.flash), Err(Refusal::Asked));
        let number = went.pieces;
        went.pieces += 1;
        chip.meet(piece, &bytes, trouble.fate(number));
        if trouble == Trouble::Cut(number) {
            went.over = true;
            return;
        }
        match board.took(&chip.flash, trouble.fails(number), &mut out) {
            Ok(Reply::Asks) => {}
            Ok(Reply::Answered(answer, count)) => {
                if count == 6 {
                    assert_eq!(answer, Answer::Bytes);
                    went.status.copy_from_slice(&out[..6]);
                }
                return;
            }
            Err(_) => panic!("took is refused"),
        }
    }
}

/// Hands a setup with its body in, and serves what it asks for.
fn ask(board: &mut Board, chip: &mut Chip, request: Request<'_>, went: &mut Went) {
    let (setup, body) = request;
    let mut out = [0; 1500];
    match board.handle(&chip.flash, setup, body, &mut out) {
        Ok(Reply::Asks) => serve(board, chip, went),
        Ok(Reply::Answered(_, count)) => {
            if count == 6 {
                went.status.copy_from_slice(&out[..6]);
            }
        }
        Err(_) => panic!("handle is refused"),
    }
}

/// Lets time pass, and serves what it asks for.
fn wait(board: &mut Board, chip: &mut Chip, ms: u32, went: &mut Went) {
    match board.elapse(&chip.flash, ms) {
        Ok(Reply::Asks) => serve(board, chip, went),
        Ok(Reply::Answered(_, _)) => {}
        Err(_) => panic!("elapse is refused"),
    }
}

/// Sends a block, asks for the status after it, and lets the time pass that the status asks for.
pub fn send(board: &mut Board, chip: &mut Chip, request: Request<'_>, went: &mut Went) {
    ask(board, chip, request, went);
    ask(board, chip, (&GET_STATUS, &[]), went);
    let ms = u32::from(went.status[1]);
    if ms > 0 && !went.over {
        wait(board, chip, ms, went);
    }
    if ms > 0 && !went.over {
        ask(board, chip, (&GET_STATUS, &[]), went);
    }
}

/// A board in dfuIDLE on this chip, with these times.
pub fn idle(chip: &Chip, times: (u32, u32)) -> Outcome<Board> {
    let (busy, manifest) = times;
    let mut board = Board::power_on(chip, config(busy, manifest)?);
    let mut out = [0; 1500];
    assert_eq!(
        board.answer(&chip.flash, &DETACH, &mut out),
        (Answer::Ack, 0)
    );
    assert_eq!(board.usb_reset(&chip.flash), Ok(()));
    Ok(board)
}

/// A chip as it is shipped, and a board in dfuIDLE on it, with these times.
pub fn shipped(kind: Kind, times: (u32, u32)) -> Outcome<(Chip, Board)> {
    let chip = Chip::shipped(kind)?;
    let board = idle(&chip, times)?;
    Ok((chip, board))
}

/// A board in dfuIDLE downloads 77h throughout, in the blocks of its chip, with this trouble.
pub fn install(board: &mut Board, chip: &mut Chip, trouble: Trouble) -> Went {
    let mut went = Went::new(trouble);
    let image = [0x77; 1500];
    let mut number: u8 = 0;
    for len in chip.kind.blocks {
        if len == 0 {
            break;
        }
        let setup = dnload(number, len);
        send(board, chip, (&setup, &image[..usize::from(len)]), &mut went);
        if went.over || went.status[0] != 0 {
            return went;
        }
        number += 1;
    }
    let setup = dnload(number, 0);
    send(board, chip, (&setup, &[]), &mut went);
    went
}

/// A board that gets power downloads as `install` does.
pub fn download(chip: &mut Chip, times: (u32, u32), trouble: Trouble) -> Outcome<Went> {
    let mut board = idle(chip, times)?;
    Ok(install(&mut board, chip, trouble))
}

#[test]
fn a_download_is_what_was_asked_for() -> Outcome {
    for kind in KINDS {
        for times in [(0, 0), (5, 0), (0, 5), (5, 5)] {
            let mut chip = Chip::shipped(kind)?;
            let went = download(&mut chip, times, Trouble::None)?;
            assert_eq!(went.status, [0, 0, 0, 0, 2, 0]);
            assert!(chip.is_new());
            assert_eq!(went.pieces, kind.pieces);
        }
    }
    Ok(())
}
