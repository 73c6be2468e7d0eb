//! The system's words for an error. Rust's own take memory for them, and end the program where it is refused.
#![allow(unsafe_code)]

use core::ffi::{CStr, c_char, c_int};
use core::fmt;
use std::io::Error;

/// The words for an error, which take no memory.
pub struct Reason<'e>(&'e Error);

/// The words for an error.
pub fn reason(error: &Error) -> Reason<'_> {
    Reason(error)
}

unsafe extern "C" {
    // On Linux the name without a front is that of another call.
    #[cfg_attr(target_os = "linux", link_name = "__xpg_strerror_r")]
    fn strerror_r(number: c_int, words: *mut c_char, room: usize) -> c_int;
}

/// How many bytes the words of a system may have.
const ROOM: usize = 128;

impl fmt::Display for Reason<'_> {
    fn fmt(&self, f: &mut fmt::Formatter<'_>) -> fmt::Result {
        let Some(number) = self.0.raw_os_error() else {
            return fmt::Display::fmt(self.0, f);
        };
        let mut words = [0; ROOM];
        // SAFETY: the call writes at most so many bytes, one less than there are, so that a 0 follows them.
        unsafe { strerror_r(number, words.as_mut_ptr().cast(), ROOM - 1) };
        let words = CStr::from_bytes_until_nul(&words).ok().and_then(|words| words.to_str().ok());
        write!(f, "{} (os error {number})", words.unwrap_or("error"))
    }
}
