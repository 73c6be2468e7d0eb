//! Random files and events.

use dfu::sim::{Event, Fate};
use fustrelan::device::Objection;
use fustrelan::host::Limits;
use unit_program::Outcome;
use unit_program::dice::Dice;
use unit_program::files::file_with;

/// A whole file with a random payload of so many bytes.
pub fn file_of(dice: &mut Dice, len: u32) -> Outcome<Vec<u8>> {
    file_with(&dice.bytes(len))
}

/// Random bytes for a harmed write: none, some, or bytes that begin as an open gate.
pub fn tear_of(dice: &mut Dice) -> Vec<u8> {
    let mut tear = Vec::new();
    if dice.roll(2) == 0 {
        tear.push(0xa5);
    }
    let most = if dice.roll(6) == 0 { 600 } else { 20 };
    let len = dice.roll(most);
    tear.extend(dice.bytes(len));
    tear
}

/// The next event.
pub fn event<'f, 't>(dice: &mut Dice, file: &'f [u8], tear: &'t [u8]) -> Event<'f, 't> {
    let limits = Limits {
        actions: dice.roll(200),
        restarts: dice.roll(3) as u16,
    };
    match dice.roll(30) {
        0 | 1 => Event::Offer { file, limits },
        2 => Event::OfferVerified { file, limits },
        3 => Event::Upload { limits },
        4 => Event::Abort,
        5 => Event::Time(dice.roll(30)),
        6 => Event::Reset,
        7 => Event::Cut,
        _ => {
            let writes = dice.roll(5);
            Event::Go(dice.fate(16, writes, tear))
        }
    }
}

/// The tear of a write that is harmed as the scripts harm theirs: an open gate, an open gate before erased bytes, or many bytes.
pub fn long_tear(dice: &mut Dice) -> Vec<u8> {
    let len = 1 + dice.roll(1100);
    match dice.roll(6) {
        0 => Vec::new(),
        1 => vec![0xa5],
        2 => [vec![0xa5], vec![0xff; 40]].concat(),
        3 => vec![0],
        4 => vec![0xff; len as usize],
        _ => dice.bytes(len.min(600)),
    }
}

/// A harmed action.
pub fn harmed<'f, 't>(dice: &mut Dice, tear: &'t [u8]) -> Event<'f, 't> {
    let writes = dice.one_of(&[0, 1, 1, 2, 4]);
    Event::Go(match dice.roll(3) {
        0 => Fate::Cut { writes, tear },
        1 => Fate::Fail { writes, tear },
        _ => Fate::Lie { writes, tear },
    })
}

/// An event that harms no write.
pub fn plain<'f, 't>(dice: &mut Dice, limits: Limits) -> Event<'f, 't> {
    match dice.roll(9) {
        0 => Event::Go(Fate::LostOut),
        1 => Event::Go(Fate::LostBack),
        2 => Event::Go(Fate::Twice),
        3 => Event::Go(Fate::Slip(3)),
        4 => Event::Time(20),
        5 => Event::Reset,
        6 => Event::Cut,
        7 => Event::Upload { limits },
        _ => Event::Abort,
    }
}

/// A refusal of the image that was closed.
pub fn refusal<'f, 't>(dice: &mut Dice) -> Event<'f, 't> {
    Event::Refuse(dice.one_of(&[Objection::File, Objection::Target]))
}
