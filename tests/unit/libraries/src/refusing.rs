//! Memory that is refused: an allocator for a group of tests, which refuses while a test says so.

use std::alloc::{GlobalAlloc, Layout, System};
use std::cell::Cell;
use std::ptr::null_mut;

/// The system's allocator, but for what [`after`] refuses. A group has it as its `#[global_allocator]`.
pub struct Refusing;

thread_local! {
    /// How many allocations of this thread work before all are refused. None are refused at first.
    static LEFT: Cell<Option<u32>> = const { Cell::new(None) };
}

/// Refuses each allocation of this thread but the first ones, `works` of them, while it runs.
pub fn after<T>(works: u32, run: impl FnOnce() -> T) -> T {
    LEFT.set(Some(works));
    let done = run();
    LEFT.set(None);
    done
}

/// Whether the allocation that is asked for is refused. It counts.
fn is_refused() -> bool {
    match LEFT.get() {
        None => false,
        Some(0) => true,
        Some(left) => {
            LEFT.set(Some(left - 1));
            false
        }
    }
}

// SAFETY: each call is the system's, or answers that there is no memory.
unsafe impl GlobalAlloc for Refusing {
    unsafe fn alloc(&self, layout: Layout) -> *mut u8 {
        if is_refused() {
            return null_mut();
        }
        unsafe { System.alloc(layout) }
    }

    unsafe fn realloc(&self, ptr: *mut u8, layout: Layout, new_size: usize) -> *mut u8 {
        if is_refused() {
            return null_mut();
        }
        unsafe { System.realloc(ptr, layout, new_size) }
    }

    unsafe fn dealloc(&self, ptr: *mut u8, layout: Layout) {
        unsafe { System.dealloc(ptr, layout) }
    }
}
