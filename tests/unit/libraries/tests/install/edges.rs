//! Images of other sizes, pieces of FFh, and numbers that are no place of an operation.

use crate::board::{Board, SECTOR};
use fustrelan::boot::install::{Due, InstallRefusal, took};

/// What fills the whole run area if nothing is in place.
static WHOLE: [Due; 6] = [
    Due::Erase(0),
    Due::Program(0),
    Due::Program(256),
    Due::Erase(512),
    Due::Program(512),
    Due::Program(768),
];

#[test]
fn image_as_large_as_the_area() {
    let mut board = Board::blank(1024);
    board.does(&WHOLE);
    board.expects(Due::Start);
}

/// Two sectors of two pieces cost at most 2 * (1 + 2) + 2 operations; here they cost 7.
#[test]
fn most_operations() {
    let mut board = Board::blank(1024);
    board.run[256] = 0;
    board.last = Some(0);
    board.does(&[Due::Program(0)]);
    board.does(&WHOLE);
    board.expects(Due::Start);
}

#[test]
fn pieces_that_are_blank_in_the_image() {
    let mut board = Board::blank(1);
    board.bytes[..256].fill(0xff);
    board.expects(Due::Start);
    board.len = 512;
    board.does(&[Due::Erase(0), Due::Program(256)]);
    board.expects(Due::Start);
}

#[test]
fn one_byte() {
    let mut board = Board::blank(1);
    board.run = [0; 1024];
    board.expects(Due::Start);
    board.bytes[0] = 1;
    board.does(&[Due::Erase(0), Due::Program(0)]);
    board.expects(Due::Start);
}

/// Places that are no last operation, or one with the first piece not in place, and what is due.
static LAST: [(u32, Due); 4] = [
    (700, Due::Erase(0)),
    (0xffff_ffff, Due::Erase(0)),
    (100, Due::Erase(0)),
    (256, Due::Program(256)),
];

#[test]
fn no_place_of_an_operation() {
    let mut board = Board::blank(600);
    for (last, due) in &LAST {
        board.last = Some(*last);
        board.expects(*due);
    }
}

/// What is said to be carried out, and what is the last operation then.
static CARRIED_OUT: [(Due, Option<u32>); 7] = [
    (Due::Erase(512), Some(512)),
    (Due::Erase(1024), None),
    (Due::Erase(0xffff_ff00), None),
    (Due::Program(1024), None),
    (Due::Program(0xffff_ff00), None),
    (Due::Start, None),
    (Due::Refuse(InstallRefusal::NoImage), None),
];

#[test]
fn what_is_no_operation_of_the_area() {
    let board = Board::blank(600);
    for (due, last) in &CARRIED_OUT {
        let found = took(board.image(), &board.run, SECTOR, *due, false);
        assert_eq!(found, *last, "{due:?}");
    }
}
