//! Files.

use crate::rt::Files;
use std::io;

/// Opens a file to read it.
pub fn open<R: Files>(rt: &R, path: &str) -> io::Result<R::File> {
    rt.open(path)
}
