//! WebAssembly has no threads here: none starts.

use std::io;

/// A thread, of which there are none.
pub(super) enum Thread {}

/// Starts no thread.
///
/// # Safety
///
/// Nothing is asked: this is the shape of the system's call.
pub(super) unsafe fn start<W: FnMut() + Send>(_work: *mut W) -> io::Result<Thread> {
    Err(io::ErrorKind::Unsupported.into())
}

impl Thread {
    /// Waits until the thread has ended.
    pub(super) fn join(self) {
        match self {}
    }
}
