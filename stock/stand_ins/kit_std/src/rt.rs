//! The handle of the process, and what can be done with it. The crates take any handle that can do what they need.

use crate::alloc::Global;
use crate::streams::Stream;
use std::io::{self, Read};

/// The handle of this process. Only its start and tests make one.
pub struct HostRuntime(());

impl HostRuntime {
    #[doc(hidden)]
    pub fn new() -> HostRuntime {
        HostRuntime(())
    }

    /// Standard output.
    pub fn stdout(&self) -> Stream {
        Stream::standard(1)
    }

    /// Standard error.
    pub fn stderr(&self) -> Stream {
        Stream::standard(2)
    }
}

/// The process has memory.
pub trait AllocGlobal {
    /// The process's allocator.
    fn alloc(&self) -> Global {
        Global
    }
}

/// The process has a standard output.
pub trait Print {}

/// The process has a standard error.
pub trait Eprint {}

/// The process has a clock.
pub trait Clock {}

/// The process has words of its command line.
pub trait Env {}

/// The process can open files.
pub trait Files {
    /// An open file.
    type File: Read;

    /// Opens a file to read it.
    fn open(&self, path: &str) -> io::Result<Self::File>;
}

impl AllocGlobal for HostRuntime {}
impl Print for HostRuntime {}
impl Eprint for HostRuntime {}
impl<R: Eprint + ?Sized> Eprint for &R {}
impl Clock for HostRuntime {}
impl Env for HostRuntime {}

impl Files for HostRuntime {
    type File = crate::streams::File;

    fn open(&self, path: &str) -> io::Result<Self::File> {
        crate::streams::open(path)
    }
}
