//! A download of blocks that make no whole units, beside the calls of a slot store.

use super::board::Board;
use super::chip::{Chip, Kind};
use super::dnload;
use super::rows::{Went, idle, send};
use super::trouble::Trouble;
use fustrelan::memory::Global;
use fustrelan::slots::{Medium, SimMedium, Slots, Unit};
use unit::Outcome;

/// In place, and in sectors of 512 bytes, in units of 64 bytes, with room for 512 and 1,024 bytes.
#[rustfmt::skip]
static UNITS_OF_64: [Kind; 2] = [
    Kind { unit: Unit::U64, sector: 0, len: 1280, blocks: [0; 3], before: 0, pieces: 0 },
    Kind { unit: Unit::U64, sector: 512, len: 4096, blocks: [0; 3], before: 0, pieces: 0 },
];

/// How many bytes each block has, and how many are held back after it: the rest of all so far, by 64.
const BLOCKS: [(u16, usize); 6] = [(100, 36), (1, 37), (63, 36), (200, 44), (20, 0), (8, 8)];

/// The bytes of all blocks.
const IMAGE_LEN: u16 = 392;

/// The register over the image, by a CRC program, whose last step turns each bit, turned back.
const REGISTER: u32 = 0x30ae_7a3d;

/// So many bytes of the image from there on.
fn image_bytes(at: u32, len: u16) -> Vec<u8> {
    (at..at + u32::from(len)).map(|i| (i % 251) as u8).collect()
}

/// A slot store on a medium that is written as this chip, with the image `00`.
fn store(kind: Kind) -> Outcome<Slots<SimMedium>> {
    let blank = SimMedium::with_sectors(Global, kind.len, kind.unit, kind.sector)?;
    Ok(Slots::format(blank, &[0]).map_err(|(fault, _)| fault)?)
}

/// A chip with the bytes of the store's medium.
fn chip_of(kind: Kind, slots: &Slots<SimMedium>) -> Outcome<Chip> {
    let mut chip = Chip::shipped(kind)?;
    slots.medium().read(0, &mut chip.flash);
    Ok(chip)
}

/// The chip has the bytes of the store's medium.
fn has_its_bytes(chip: &Chip, slots: &Slots<SimMedium>) {
    let mut bytes = vec![0; chip.flash.len()];
    slots.medium().read(0, &mut bytes);
    assert_eq!(bytes, chip.flash);
}

/// The bytes of the second slot once the image is in place there, in this order: gate, header, and data.
fn has_its_image(chip: &Chip) {
    let [low, high] = IMAGE_LEN.to_le_bytes();
    let [a, b, c, d] = REGISTER.to_le_bytes();
    stand_there(chip, chip.at(true), &[0xa5], 64);
    let header = [1, 2, 0, 0, low, high, 0, 0, a, b, c, d];
    stand_there(chip, chip.header_at(true), &header, 64);
    stand_there(chip, chip.image_at(true), &image_bytes(0, IMAGE_LEN), 448);
}

/// These bytes are at a place of the chip, and zeros after them: so many in all, which are whole units.
fn stand_there(chip: &Chip, at: usize, front: &[u8], len: usize) {
    let mut wanted = front.to_vec();
    wanted.resize(len, 0);
    assert_eq!(chip.flash[at..at + len], wanted);
}

/// Puts these bytes at the end of the puts, which is here.
fn put(slots: &mut Slots<SimMedium>, end: u32, bytes: &[u8]) -> Outcome {
    assert_eq!(slots.put_end(), end);
    Ok(slots.put(end, bytes)?)
}

/// The last bytes before this end of the image are held back, and no others.
fn holds_back(board: &Board, end: u32, rest: usize) {
    assert_eq!((board.device.held_len, board.device.put_end), (rest, end));
    let wanted = image_bytes(end - rest as u32, rest as u16);
    assert_eq!(board.held[..rest], wanted);
}

/// A block of this number and length is sent, and the board is in this state then.
fn sends(board: &mut Board, chip: &mut Chip, block: (u8, u16), body: &[u8], state: u8) {
    let (number, len) = block;
    let mut went = Went::new(Trouble::None);
    let setup = dnload(number, len);
    send(board, chip, (&setup, body), &mut went);
    assert_eq!(went.status, [0, 0, 0, 0, state, 0]);
}

/// A download of all blocks, with the calls of the store beside it.
fn goes_with_the_store(kind: Kind, times: (u32, u32)) -> Outcome {
    let mut slots = store(kind)?;
    let mut chip = chip_of(kind, &slots)?;
    let mut board = idle(&chip, times)?;
    let mut number: u8 = 0;
    let mut end: u32 = 0;
    slots.begin()?;
    for (len, rest) in BLOCKS {
        let body = image_bytes(end, len);
        sends(&mut board, &mut chip, (number, len), &body, 5);
        put(&mut slots, end, &body)?;
        has_its_bytes(&chip, &slots);
        end += u32::from(len);
        holds_back(&board, end, rest);
        number += 1;
    }
    sends(&mut board, &mut chip, (number, 0), &[], 2);
    assert_eq!(slots.put_end(), u32::from(IMAGE_LEN));
    slots.commit(u32::from(IMAGE_LEN))?;
    has_its_bytes(&chip, &slots);
    has_its_image(&chip);
    Ok(())
}

#[test]
fn a_download_in_units_is_what_the_store_makes() -> Outcome {
    for kind in UNITS_OF_64 {
        for times in [(0, 0), (5, 5)] {
            goes_with_the_store(kind, times)?;
        }
    }
    Ok(())
}
