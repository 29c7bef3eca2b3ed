//! The allocator that growing calls take, and what they return where there is no memory.

use std::fmt;

/// The allocator of the process.
#[derive(Clone, Copy, Debug, PartialEq, Eq)]
pub struct Global;

/// There was no memory.
#[derive(Clone, Copy, Debug, PartialEq, Eq)]
pub struct AllocError;

/// There was no memory for this value, which comes back.
#[derive(Clone, Copy, PartialEq, Eq)]
pub struct AllocFailed<T>(pub T);

impl<T> fmt::Debug for AllocFailed<T> {
    fn fmt(&self, f: &mut fmt::Formatter<'_>) -> fmt::Result {
        f.write_str("AllocFailed")
    }
}

impl fmt::Display for AllocError {
    fn fmt(&self, f: &mut fmt::Formatter<'_>) -> fmt::Result {
        f.write_str("no memory")
    }
}

impl<T> From<AllocFailed<T>> for AllocError {
    fn from(_: AllocFailed<T>) -> AllocError {
        AllocError
    }
}

impl From<AllocError> for std::io::Error {
    fn from(_: AllocError) -> std::io::Error {
        std::io::ErrorKind::OutOfMemory.into()
    }
}
