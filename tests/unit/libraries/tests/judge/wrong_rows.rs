//! Wrong rows, planted by hand in a device that follows the cells: those that the standard forbids are reported, and those that it allows
//! are not.

use super::walker::{Planted, first_departure};
use fustrelan::conformance::Verdict;

/// A planted row: a state, a request of the list, a letter and a state.
const fn planted(row: (u8, usize, u8, u8)) -> Planted {
    let (state, request, letter, next) = row;
    Planted {
        state,
        request,
        letter,
        next,
    }
}

/// Rows that no device of the standard has.
#[rustfmt::skip]
static FORBIDDEN: [(u8, usize, u8, u8); 63] = [
    (0, 0, b'S', 0), (0, 4, b'T', 2), (0, 4, b'S', 0), (0, 6, b'Q', 2), (0, 1, b'A', 3), (0, 3, b'F', 9),
    (0, 7, b'A', 0), (0, 5, b'A', 0), (0, 8, b'A', 0), (0, 2, b'A', 6), (0, 6, b'S', 0), (1, 4, b'S', 1),
    (1, 6, b'Q', 5), (1, 4, b'T', 4), (2, 1, b'A', 2), (2, 1, b'A', 5), (2, 2, b'A', 6), (2, 3, b'F', 2),
    (2, 3, b'F', 5), (2, 7, b'S', 10), (2, 4, b'T', 5), (2, 4, b'S', 10), (2, 5, b'A', 2), (2, 0, b'A', 0),
    (2, 8, b'A', 2), (2, 8, b'S', 2), (2, 6, b'Q', 3), (2, 7, b'A', 10), (3, 4, b'T', 3), (3, 4, b'T', 2),
    (3, 1, b'A', 3), (3, 6, b'Q', 5), (3, 4, b'S', 10), (3, 3, b'F', 9), (3, 8, b'S', 3), (4, 1, b'A', 3),
    (4, 4, b'T', 2), (4, 7, b'S', 4), (5, 2, b'A', 5), (5, 2, b'A', 2), (5, 7, b'S', 10), (5, 4, b'T', 2),
    (5, 3, b'F', 9), (5, 5, b'A', 2), (5, 4, b'T', 3), (6, 4, b'T', 6), (6, 4, b'T', 5), (6, 4, b'T', 8),
    (6, 1, b'A', 3), (7, 4, b'T', 5), (7, 1, b'A', 3), (9, 3, b'P', 9), (9, 7, b'A', 9), (9, 1, b'A', 3),
    (9, 4, b'T', 2), (10, 5, b'S', 10), (10, 5, b'A', 10), (10, 7, b'A', 2), (10, 4, b'T', 2), (10, 4, b'N', 10),
    (10, 1, b'A', 3), (10, 8, b'S', 2), (10, 6, b'Q', 2),
];

/// Rows that a device may have: it does at once what another one first does by itself, or the standard can be read that way.
#[rustfmt::skip]
static ALLOWED: [(u8, usize, u8, u8); 12] = [
    (0, 0, b'A', 0), (1, 4, b'T', 0), (1, 0, b'A', 1), (3, 7, b'A', 2), (3, 5, b'A', 2), (4, 4, b'T', 5),
    (4, 4, b'T', 4), (5, 1, b'S', 10), (6, 7, b'A', 2), (6, 4, b'T', 2), (7, 4, b'T', 7), (7, 7, b'A', 2),
];

#[test]
fn a_device_by_the_cells_is_kept() {
    for seed in 0u32..20 {
        assert_eq!(
            first_departure(seed, 1_000, None),
            Ok(Verdict::Kept),
            "walk {seed}"
        );
    }
}

#[test]
fn each_forbidden_row_is_told() {
    for row in &FORBIDDEN {
        let told = (0u32..8).any(|seed| first_departure(seed, 1_000, Some(planted(*row))).is_err());
        assert!(told, "the row {row:?} is not told");
    }
}

#[test]
fn no_allowed_row_is_told() {
    for row in &ALLOWED {
        for seed in 0u32..2 {
            assert!(
                first_departure(seed, 1_000, Some(planted(*row))).is_ok(),
                "the row {row:?} is told"
            );
        }
    }
}
