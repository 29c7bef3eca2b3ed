//! Streams. What reads and writes by itself is stock Rust's.

mod buffered;

pub use crate::streams::IsTerminal;
pub use buffered::{BufRead, BufReader};
pub use std::io::{Error, ErrorKind, Read, Result, Write};

use crate::rt::{Eprint, HostRuntime, Print};
use crate::streams::Stream;
use std::fmt;

/// The process has a standard input.
pub trait Input {
    /// What reads it.
    type Reader: Read;

    /// A reader of standard input. It keeps no bytes back.
    fn reader(&self) -> Self::Reader;
}

impl Input for HostRuntime {
    type Reader = Stream;

    fn reader(&self) -> Stream {
        Stream::standard(0)
    }
}

/// A writer of standard output. It keeps no bytes back.
pub fn writer<R: Print>(_rt: &R) -> Stream {
    Stream::standard(1)
}

/// Writes on standard error what `eprint!` formats.
#[doc(hidden)]
pub fn eprint<R: Eprint>(_rt: &R, said: fmt::Arguments<'_>) -> Result<()> {
    Stream::standard(2).write_fmt(said)
}
