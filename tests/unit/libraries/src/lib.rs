//! What the groups of tests share.

use std::error::Error;
use std::fmt::Display;

pub mod refusing;
pub mod requests;

/// What a test returns. Each error of the libraries ends it by `?`, and is printed.
pub type Outcome<T = ()> = Result<T, Box<dyn Error>>;

/// Each fault is displayed as the text beside it.
pub fn are_displayed<F: Display>(rows: &[(F, &str)]) {
    for (fault, text) in rows {
        assert_eq!(fault.to_string(), *text);
    }
}
