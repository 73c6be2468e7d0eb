//! The allocator of the program. Where its sources take memory, a refusal is an answer of the call. The package clap has no such answer:
//! while it runs, a refusal ends the program with the line that its sources would print.
#![allow(unsafe_code)]

use core::ffi::{c_int, c_void};
use core::sync::atomic::{AtomicBool, Ordering};
use std::alloc::{GlobalAlloc, Layout, System};

/// The system's allocator.
pub struct Refusing;

/// Whether a refusal ends the program.
static ENDS: AtomicBool = AtomicBool::new(false);

const LINE: &[u8] = b"refused NoMemory\n";
const STATUS: c_int = 1;
const FAULT: c_int = 3;
const OUTPUT: c_int = 1;

unsafe extern "C" {
    fn write(to: c_int, bytes: *const c_void, count: usize) -> isize;
    fn _exit(status: c_int) -> !;
}

/// Runs what has no answer for memory that is refused. Nothing may be out, and no file begun.
pub(super) fn or_end<T>(run: impl FnOnce() -> T) -> T {
    let before = ENDS.swap(true, Ordering::Relaxed);
    let made = run();
    ENDS.store(before, Ordering::Relaxed);
    made
}

/// Ends the program if a refusal has to.
fn answered(block: *mut u8) -> *mut u8 {
    if block.is_null() && ENDS.load(Ordering::Relaxed) {
        // SAFETY: both are calls of the C library, and the bytes are LINE.
        unsafe {
            let out = write(OUTPUT, LINE.as_ptr().cast(), LINE.len());
            _exit(if usize::try_from(out) == Ok(LINE.len()) { STATUS } else { FAULT });
        }
    }
    block
}

// SAFETY: it is the system's, or the program ends.
unsafe impl GlobalAlloc for Refusing {
    unsafe fn alloc(&self, layout: Layout) -> *mut u8 {
        // SAFETY: the caller keeps to what `alloc` asks.
        answered(unsafe { System.alloc(layout) })
    }

    unsafe fn dealloc(&self, block: *mut u8, layout: Layout) {
        // SAFETY: the caller keeps to what `dealloc` asks.
        unsafe { System.dealloc(block, layout) }
    }

    unsafe fn realloc(&self, block: *mut u8, layout: Layout, size: usize) -> *mut u8 {
        // SAFETY: the caller keeps to what `realloc` asks.
        answered(unsafe { System.realloc(block, layout, size) })
    }
}
