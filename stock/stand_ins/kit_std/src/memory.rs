//! What happens where the system has no memory.
//!
//! Calls of the sources that grow something ask by [`may_fail`], and get an `Err`. What stock Rust's library
//! allocates for itself can't fail in words, and would abort the process: [`OrEnd`] ends it as the program
//! ends where it finds no memory.

use crate::start;
use std::alloc::{GlobalAlloc, Layout, System};
use std::cell::Cell;

thread_local! {
    static MAY_FAIL: Cell<bool> = const { Cell::new(false) };
}

/// Does what allocates and can say that there is no memory.
pub(crate) fn may_fail<T>(ask: impl FnOnce() -> T) -> T {
    MAY_FAIL.set(true);
    let answer = ask();
    MAY_FAIL.set(false);
    answer
}

/// The system's allocator. Where it refuses and the caller can't be told, the process ends.
pub struct OrEnd;

fn or_end(place: *mut u8) -> *mut u8 {
    if place.is_null() && !MAY_FAIL.get() {
        start::end_without_memory()
    }
    place
}

// SAFETY: each call is the system allocator's, with the same arguments, and returns what that one returns or not
// at all.
unsafe impl GlobalAlloc for OrEnd {
    unsafe fn alloc(&self, layout: Layout) -> *mut u8 {
        // SAFETY: the caller's promises are those that this call wants.
        or_end(unsafe { System.alloc(layout) })
    }

    unsafe fn alloc_zeroed(&self, layout: Layout) -> *mut u8 {
        // SAFETY: as in `alloc`.
        or_end(unsafe { System.alloc_zeroed(layout) })
    }

    unsafe fn realloc(&self, place: *mut u8, layout: Layout, size: usize) -> *mut u8 {
        // SAFETY: as in `alloc`.
        or_end(unsafe { System.realloc(place, layout, size) })
    }

    unsafe fn dealloc(&self, place: *mut u8, layout: Layout) {
        // SAFETY: as in `alloc`.
        unsafe { System.dealloc(place, layout) }
    }
}
