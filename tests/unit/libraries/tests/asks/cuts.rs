//! A failure, a lie and a loss of power at each piece of a download.

use super::chip::{Chip, Fate, KINDS};
use super::rows::download;
use super::trouble::Trouble;
use unit::Outcome;

/// The old image is active; or the new one, if the piece is one of the gate's.
fn has_image(chip: &Chip, piece: u32) {
    let gate = if chip.kind.sector == 0 { 1 } else { 2 };
    let at_gate = piece + gate >= chip.kind.pieces;
    assert!(chip.active() == (1, 0) || at_gate && chip.is_new());
}

/// The next download works on the flash as it was left.
fn goes_on(chip: &mut Chip, times: (u32, u32)) -> Outcome {
    let went = download(chip, times, Trouble::None)?;
    assert_eq!(went.status, [0, 0, 0, 0, 2, 0]);
    assert!(chip.is_new());
    Ok(())
}

/// A download with this trouble at a piece, what it leaves, and the next download.
fn goes_wrong(mut chip: Chip, times: (u32, u32), trouble: Trouble) -> Outcome {
    let kind = chip.kind;
    let went = download(&mut chip, times, trouble)?;
    match trouble {
        Trouble::None => assert!(chip.is_new()),
        Trouble::Fails(piece, _) => {
            let code = if piece < kind.before { 0x03 } else { 0x06 };
            assert_eq!((went.status[0], went.status[4]), (code, 10));
            has_image(&chip, piece);
        }
        Trouble::Lies(_) => {
            assert_eq!((went.status[0], went.status[4]), (0x07, 10));
            assert_eq!(chip.active(), (1, 0));
        }
        Trouble::Cut(piece) => {
            assert!(went.over);
            has_image(&chip, piece);
        }
    }
    goes_on(&mut chip, times)
}

/// Each piece of a download has this trouble in turn.
fn each_piece_goes_wrong(trouble: Trouble) -> Outcome {
    for kind in KINDS {
        for times in [(0, 0), (5, 5)] {
            for piece in 0..kind.pieces {
                let chip = Chip::shipped(kind)?;
                goes_wrong(chip, times, trouble.at(piece))?;
            }
        }
    }
    Ok(())
}

#[test]
fn each_failure_is_told() -> Outcome {
    each_piece_goes_wrong(Trouble::Fails(0, Fate::Torn))
}

#[test]
fn each_lie_is_told() -> Outcome {
    each_piece_goes_wrong(Trouble::Lies(0))
}

#[test]
fn each_loss_of_power_leaves_an_image() -> Outcome {
    each_piece_goes_wrong(Trouble::Cut(0))
}
