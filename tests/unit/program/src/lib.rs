//! What the groups of tests share.

pub mod dice;
pub mod files;
pub mod known_files;
pub mod readers;
#[path = "../../libraries/src/refusing.rs"]
pub mod refusing;
pub mod words;

use std::error::Error;

/// What a test returns. Each error ends it by `?`, and is printed.
pub type Outcome<T = ()> = Result<T, Box<dyn Error>>;
