//! Random events.

use dfu::link::{Event, Fate};
use fustrelan::host::Limits;
use unit_program::dice::Dice;

/// Files whose payloads have 1, 4, 9 and 24 bytes.
#[rustfmt::skip]
static FILES: [&[u8]; 4] = [
    &[
        0x5a, 0xff, 0xff, 0xff, 0xff, 0xff, 0xff, 0x00, 0x01, 0x55, 0x46, 0x44, 0x10, 0x5b, 0x20, 0x0f,
        0xcf,
    ],
    &[
        0xff, 0xff, 0xff, 0xff, 0xff, 0xff, 0xff, 0xff, 0xff, 0xff, 0x00, 0x01, 0x55, 0x46, 0x44, 0x10,
        0x71, 0xc8, 0x51, 0x0c,
    ],
    &[
        0x31, 0x32, 0x33, 0x34, 0x35, 0x36, 0x37, 0x38, 0x39, 0xff, 0xff, 0xff, 0xff, 0xff, 0xff, 0x00,
        0x01, 0x55, 0x46, 0x44, 0x10, 0x16, 0x4b, 0x65, 0x0f,
    ],
    &[
        0x01, 0x02, 0x03, 0x04, 0x05, 0x06, 0x07, 0x08, 0x09, 0x0a, 0x0b, 0x0c, 0x0d, 0x0e, 0x0f, 0x10,
        0x11, 0x12, 0x13, 0x14, 0x15, 0x16, 0x17, 0x18, 0xff, 0xff, 0xff, 0xff, 0xff, 0xff, 0x00, 0x01,
        0x55, 0x46, 0x44, 0x10, 0xc8, 0x00, 0x4a, 0x35,
    ],
];

#[rustfmt::skip]
static DAMAGED: [u8; 20] = [
    0xff, 0xff, 0xfe, 0xff, 0xff, 0xff, 0xff, 0xff, 0xff, 0xff, 0x00, 0x01, 0x55, 0x46, 0x44, 0x10,
    0x71, 0xc8, 0x51, 0x0c,
];

/// The file with this number, or the damaged one.
pub fn file(number: u32) -> &'static [u8] {
    match FILES.get(number as usize) {
        Some(file) => *file,
        None => &DAMAGED,
    }
}

/// The payload of a file, which precedes its 16 bytes of suffix.
pub fn payload(number: u32) -> &'static [u8] {
    let file = file(number);
    let len = file.len().saturating_sub(16);
    let (payload, _) = file.split_at(len);
    payload
}

static TEARS: [&[u8]; 3] = [&[], &[0xa5], &[0x00]];

static LONG: [u8; 64] = [0xa5; 64];

/// What a harmed write leaves: nothing new, an open gate, a closed one, or an open one and more bytes.
fn tear(number: u32) -> &'static [u8] {
    match TEARS.get(number as usize) {
        Some(tear) => *tear,
        None => &LONG,
    }
}

fn fate(dice: &mut Dice) -> Fate<'static> {
    let writes = dice.roll(5);
    let torn = tear(dice.roll(4));
    dice.fate(13, writes, torn)
}

/// The next event; an offer has the file with this number.
pub fn event(dice: &mut Dice, number: u32) -> Event<'static, 'static> {
    let limits = Limits {
        actions: dice.roll(61),
        restarts: dice.roll(3) as u16,
    };
    match dice.roll(40) {
        0 => Event::Offer {
            file: file(number),
            limits,
        },
        1 => Event::OfferVerified {
            file: file(number),
            limits,
        },
        2 => Event::Upload { limits },
        3 => Event::Abort,
        4 => Event::Time(dice.roll(30)),
        5 => Event::Reset,
        6 => Event::Cut,
        _ => Event::Go(fate(dice)),
    }
}
