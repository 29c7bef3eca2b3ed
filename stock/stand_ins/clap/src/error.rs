//! Why a command line isn't taken.

use kit_std::alloc::{AllocError, AllocFailed};

/// What kind of failure it is. The crates ask only whether memory ran out.
#[derive(Clone, Copy, Debug, PartialEq, Eq)]
pub enum ErrorKind {
    /// There was no memory.
    OutOfMemory,
    /// The words aren't those of a command line.
    Refused,
}

/// Why a command line isn't taken.
#[derive(Debug)]
pub struct Error(ErrorKind);

impl Error {
    pub(crate) const REFUSED: Error = Error(ErrorKind::Refused);

    /// What kind of failure it is.
    pub fn kind(&self) -> ErrorKind {
        self.0
    }
}

impl From<AllocError> for Error {
    fn from(_: AllocError) -> Error {
        Error(ErrorKind::OutOfMemory)
    }
}

impl<T> From<AllocFailed<T>> for Error {
    fn from(_: AllocFailed<T>) -> Error {
        Error(ErrorKind::OutOfMemory)
    }
}
