//! An image of 600 bytes, from a blank run area to the start; what comes to it then; and refusals.

use crate::board::{Board, SECTOR, bytes};
use fustrelan::boot::install::{Due, InstallRefusal, next, piece};

#[test]
fn from_blank_to_the_start() {
    let mut board = Board::blank(600);
    board.does(&[
        Due::Erase(0),
        Due::Program(0),
        Due::Program(256),
        Due::Erase(512),
        Due::Program(512),
    ]);
    board.expects(Due::Start);
    board.last = None;
    board.expects(Due::Start);
}

#[test]
fn bytes_that_are_programmed() {
    let board = Board::blank(600);
    let mut out = [0; 256];
    piece(board.image(), 512, &mut out);
    assert_eq!(out[..88], board.bytes[512..600]);
    assert_eq!(out[88..], [0xff; 256 - 88]);
    piece(board.image(), 0, &mut out);
    assert_eq!((out[0], out[250], out[251], out[255]), (0, 250, 0, 4));
    piece(board.image(), 600, &mut out);
    assert_eq!((out[0], out[255]), (0xff, 0xff));
}

#[test]
fn only_the_image_is_looked_at() {
    let mut board = Board::with_first(600);
    board.run[600] = 0;
    board.expects(Due::Start);
    board.run[599] = 0;
    board.does(&[Due::Erase(512), Due::Program(512)]);
    board.expects(Due::Start);
}

#[test]
fn another_image() {
    let mut board = Board::blank(600);
    board.does(&[Due::Erase(0), Due::Program(0)]);
    board.bytes[0] = 7;
    board.expects(Due::Erase(0));
}

/// The sizes of an image, of a blank run area and of its sectors, and why they are refused.
static REFUSED: [(usize, usize, u32, InstallRefusal); 9] = [
    (0, 1024, SECTOR, InstallRefusal::NoImage),
    (1025, 1024, SECTOR, InstallRefusal::TooLarge),
    (600, 1024, 500, InstallRefusal::WrongSize),
    (600, 1000, SECTOR, InstallRefusal::WrongSize),
    (0, 1024, 0, InstallRefusal::WrongSize),
    (1025, 1000, SECTOR, InstallRefusal::WrongSize),
    (0, 0, 262_144, InstallRefusal::NoImage),
    (1, 0, 262_144, InstallRefusal::TooLarge),
    (1, 0, 262_400, InstallRefusal::WrongSize),
];

#[test]
fn refusals() {
    let bytes = bytes();
    let run = [0xff; 1024];
    for (len, area, sector, refusal) in &REFUSED {
        let due = next(&bytes[..*len], &run[..*area], *sector, None);
        assert_eq!(due, Due::Refuse(*refusal), "{len} {area} {sector}");
    }
}
