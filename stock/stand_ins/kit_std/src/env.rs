//! The words of the command line.

use crate::alloc::Global;
use crate::rt::Env;
use crate::start;
use crate::string::String;
use crate::vec::{IntoIter, Vec};
use std::io;

/// The words of the command line, the program's name first. Each must be UTF-8.
pub fn args<R: Env>(_rt: &R) -> io::Result<IntoIter<String>> {
    let mut words = Vec::new(Global);
    for word in start::words() {
        let text = std::str::from_utf8(word).map_err(|_| io::ErrorKind::InvalidData)?;
        let text = String::from_str(Global, text)?;
        words.push(text).map_err(|_| io::ErrorKind::OutOfMemory)?;
    }
    Ok(words.into_iter())
}
