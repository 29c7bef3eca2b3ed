//! Streams by their descriptors. Stock Rust's own take a closed stream for one that ends or accepts everything.

use std::io::{self, Read, Write};
use std::mem::ManuallyDrop;
use std::os::fd::FromRawFd;

pub use std::fs::File;

/// Opens a file to read it.
pub fn open(path: &str) -> io::Result<File> {
    File::open(path)
}

/// A standard stream, which is never closed here.
pub struct Stream(ManuallyDrop<File>);

impl Stream {
    /// The stream of this descriptor: 0, 1 or 2.
    pub(crate) fn standard(number: i32) -> Stream {
        // SAFETY: nothing here closes the three standard descriptors. Where the process was started without one,
        // its number isn't given to a file, as each call on it fails first or the program opens no file.
        Stream(ManuallyDrop::new(unsafe { File::from_raw_fd(number) }))
    }
}

impl super::IsTerminal for Stream {
    fn is_terminal(&self) -> bool {
        io::IsTerminal::is_terminal(&*self.0)
    }
}

impl Read for Stream {
    fn read(&mut self, buffer: &mut [u8]) -> io::Result<usize> {
        self.0.read(buffer)
    }
}

impl Write for Stream {
    fn write(&mut self, bytes: &[u8]) -> io::Result<usize> {
        self.0.write(bytes)
    }

    fn flush(&mut self) -> io::Result<()> {
        Ok(())
    }
}
