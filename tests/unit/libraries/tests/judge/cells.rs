//! The state table of USB DFU 1.1, appendix A, cell by cell, worked out by hand.

/// For each state, 0 to 10, and each request, in the order of `REQUESTS`, the possible results: a letter and the state that is
/// entered, X for dfuERROR. A is an acknowledgement, S a stall, T a status, Q a state, F a full block of an upload, and P a short one.
#[rustfmt::skip]
static CELLS: [[&[u8]; 9]; 11] = [
    [b"A1", b"S0",   b"S0",   b"S0",       b"T0",     b"S0",   b"Q0",     b"S0",   b"S0"],
    [b"S0", b"S0",   b"S0",   b"S0",       b"T1",     b"S0",   b"Q1",     b"S0",   b"S0"],
    [b"SX", b"A3SX", b"SX",   b"F9P9P2SX", b"T2",     b"SX",   b"Q2",     b"A2",   b"SX"],
    [b"SX", b"SX",   b"SX",   b"SX",       b"T4T5",   b"SX",   b"Q3",     b"A2SX", b"SX"],
    [b"SX", b"SX",   b"SX",   b"SX",       b"T4SX",   b"SX",   b"Q4SX",   b"SX",   b"SX"],
    [b"SX", b"A3SX", b"A6SX", b"SX",       b"T5",     b"SX",   b"Q5",     b"A2",   b"SX"],
    [b"SX", b"SX",   b"SX",   b"SX",       b"T7T2",   b"SX",   b"Q6",     b"A2SX", b"SX"],
    [b"SX", b"SX",   b"SX",   b"SX",       b"T7SX",   b"SX",   b"Q7SX",   b"SX",   b"SX"],
    [b"S8SX", b"S8SX", b"S8SX", b"S8SX",       b"T8S8SX", b"S8SX", b"Q8S8SX", b"S8SX", b"S8SX"],
    [b"SX", b"SX",   b"SX",   b"F9P2SX",   b"T9",     b"SX",   b"Q9",     b"A2",   b"SX"],
    [b"SX", b"SX",   b"SX",   b"SX",       b"TX",     b"A2",   b"QX",     b"SX",   b"SX"],
];

/// The states that a device may enter by itself, from each state, with any bmAttributes.
#[rustfmt::skip]
static BY_ITSELF: [&[u8]; 11] = [b"", b"02", b"", b"X", b"3X", b"", b"X", b"68X", b"", b"", b""];

/// The letter of a state.
pub fn letter_of(state: u8) -> u8 {
    match state {
        0..=9 => b'0' + state,
        _ => b'X',
    }
}

/// The state with this letter.
pub fn state_of(letter: u8) -> u8 {
    match letter {
        b'0'..=b'9' => letter - b'0',
        _ => 10,
    }
}

/// The possible results of a request in a state.
pub fn cell(state: u8, request: usize) -> &'static [u8] {
    match CELLS.get(state as usize) {
        Some(row) => match row.get(request) {
            Some(cell) => cell,
            None => b"",
        },
        None => b"",
    }
}

/// Whether a cell has this letter with this state.
fn has(cell: &[u8], letter: u8, next: u8) -> bool {
    let next = letter_of(next);
    cell.chunks(2)
        .any(|pair| pair.len() == 2 && pair[0] == letter && pair[1] == next)
}

/// Whether a device in this state may answer so, whether or not it first enters another state by itself.
pub fn may(state: u8, request: usize, letter: u8, next: u8) -> bool {
    if has(cell(state, request), letter, next) {
        return true;
    }
    match BY_ITSELF.get(state as usize) {
        Some(others) => others
            .iter()
            .any(|other| has(cell(state_of(*other), request), letter, next)),
        None => false,
    }
}

/// Whether a device in this state may answer so, whichever state it enters.
pub fn may_anyhow(state: u8, request: usize, letter: u8) -> bool {
    (0u8..11).any(|next| may(state, request, letter, next))
}
