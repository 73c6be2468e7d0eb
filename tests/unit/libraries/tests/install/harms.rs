//! Losses of power, failures and lies.

use crate::board::Board;
use fustrelan::boot::install::Due;

#[test]
fn power_lost_in_a_program() {
    let board = Board::with_first(356);
    board.expects(Due::Erase(0));
}

#[test]
fn erase_that_left_a_byte() {
    let mut board = Board::blank(600);
    board.write(Due::Erase(0));
    board.run[511] = 0;
    board.took(Due::Erase(0), false);
    board.does(&[Due::Erase(0)]);
    board.expects(Due::Program(0));
}

#[test]
fn program_that_failed() {
    let mut board = Board::blank(600);
    board.does(&[Due::Erase(0)]);
    board.took(Due::Program(0), true);
    board.does(&[Due::Erase(0), Due::Program(0)]);
    board.expects(Due::Program(256));
}

#[test]
fn failures_that_read_right() {
    let mut board = Board::blank(600);
    board.took(Due::Erase(0), true);
    board.expects(Due::Erase(0));
    board.took(Due::Erase(0), false);
    board.write(Due::Program(0));
    board.took(Due::Program(0), true);
    board.expects(Due::Erase(0));
}

#[test]
fn program_that_left_a_byte() {
    let mut board = Board::blank(600);
    board.does(&[Due::Erase(0)]);
    board.write(Due::Program(0));
    board.run[255] = 0;
    board.took(Due::Program(0), false);
    board.expects(Due::Erase(0));
}

#[test]
fn byte_that_faded_before_the_last_operation() {
    let mut board = Board::with_first(600);
    board.run[599] = 0;
    board.does(&[Due::Erase(512)]);
    board.run[5] = 0;
    board.does(&[
        Due::Program(512),
        Due::Erase(0),
        Due::Program(0),
        Due::Program(256),
    ]);
    board.expects(Due::Start);
}
