//! Threads by the C library's calls. Stock Rust's own threads allocate what can't be refused: where the C library finds
//! no memory for it, it aborts the process.

use std::ffi::{c_int, c_void};
use std::io;
use std::ptr::{null, null_mut};

unsafe extern "C" {
    fn pthread_create(
        thread: *mut usize,
        attributes: *const c_void,
        begin: extern "C" fn(*mut c_void) -> *mut c_void,
        given: *mut c_void,
    ) -> c_int;
    fn pthread_join(thread: usize, answer: *mut *mut c_void) -> c_int;
}

/// A thread that runs, by its number or address: a word on Linux, the BSDs and macOS.
pub(super) struct Thread(usize);

extern "C" fn begin<W: FnMut() + Send>(given: *mut c_void) -> *mut c_void {
    // SAFETY: `start` gave the address of a `W`, which nobody else touches before the thread is joined.
    unsafe { (*given.cast::<W>())() };
    null_mut()
}

/// Starts a thread that does this work, with the stack that the system gives by itself.
///
/// # Safety
///
/// Nobody touches the work, and it stays in its place with all that it borrows, until the thread was joined.
pub(super) unsafe fn start<W: FnMut() + Send>(work: *mut W) -> io::Result<Thread> {
    let mut thread = 0;
    // SAFETY: the call writes the thread's number, and `begin::<W>` gets the address of a `W`.
    match unsafe { pthread_create(&mut thread, null(), begin::<W>, work.cast()) } {
        0 => Ok(Thread(thread)),
        _ => Err(io::ErrorKind::WouldBlock.into()),
    }
}

impl Thread {
    /// Waits until the thread has ended.
    pub(super) fn join(self) {
        // SAFETY: the thread was started, and is joined once, as this takes its only handle.
        let failed = unsafe { pthread_join(self.0, null_mut()) };
        assert_eq!(failed, 0, "a thread that was started can be joined");
    }
}
