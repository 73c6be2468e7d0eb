//! The entry of the program `dfu`. The C library calls it, and Rust's own start of a program does not run: that would open /dev/null in
//! place of a standard stream that is closed, and nobody would learn that the output went nowhere.
#![no_main]

use dfu::system::Machine;
use std::ffi::{c_char, c_int};

#[global_allocator]
static MEMORY: dfu::system::Refusing = dfu::system::Refusing;

/// The words are those of the command line.
// The name is the C library's.
#[unsafe(no_mangle)]
extern "C" fn main(count: c_int, words: *const *const c_char) -> c_int {
    // SAFETY: the C library gives so many words, each of which ends with a 0, and they stay.
    let machine = unsafe { Machine::new(count, words) };
    c_int::from(dfu::command::main(machine).number())
}
