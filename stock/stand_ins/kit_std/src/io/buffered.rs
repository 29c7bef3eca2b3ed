//! A reader that reads ahead into memory of its own.

use crate::alloc::{AllocError, Global};
use crate::vec::Vec;
use std::io::{ErrorKind, Read, Result};

/// Stock Rust's trait of this name, except that reading up to a byte can say that there is no memory.
pub trait BufRead: Read {
    /// What was read ahead, or what comes next where that was nothing; nothing at the end.
    fn fill_buf(&mut self) -> Result<&[u8]>;

    /// Takes as many bytes of what was read ahead.
    fn consume(&mut self, count: usize);

    /// Adds what comes up to this byte, and the byte, or all up to the end: how much that was.
    fn read_until(&mut self, last: u8, bytes: &mut Vec<u8>) -> Result<usize> {
        let before = bytes.len();
        loop {
            let ahead = match self.fill_buf() {
                Ok(ahead) => ahead,
                Err(error) if error.kind() == ErrorKind::Interrupted => continue,
                Err(error) => return Err(error),
            };
            let place = ahead.iter().position(|byte| *byte == last);
            let count = place.map_or(ahead.len(), |place| place + 1);
            bytes.extend_from_slice(&ahead[..count])?;
            self.consume(count);
            if place.is_some() || count == 0 {
                return Ok(bytes.len() - before);
            }
        }
    }
}

impl BufRead for &[u8] {
    fn fill_buf(&mut self) -> Result<&[u8]> {
        Ok(self)
    }

    fn consume(&mut self, count: usize) {
        *self = &self[count..];
    }
}

/// How much is read ahead where nobody says otherwise: as much as stock Rust's reader does.
const CAPACITY: usize = 8 * 1024;

/// Stock Rust's reader of this name, except that making one can say that there is no memory.
pub struct BufReader<R> {
    reader: R,
    /// As long as what can be read ahead.
    buffer: Vec<u8>,
    /// What was read ahead and not taken yet: the bytes from `taken` to `filled`.
    taken: usize,
    filled: usize,
}

impl<R: Read> BufReader<R> {
    /// Reads 8 KiB ahead.
    pub fn new(alloc: Global, reader: R) -> std::result::Result<Self, AllocError> {
        BufReader::with_capacity(alloc, CAPACITY, reader)
    }

    /// Reads as many bytes ahead.
    pub fn with_capacity(alloc: Global, capacity: usize, reader: R) -> std::result::Result<Self, AllocError> {
        let buffer = Vec::from_elem(alloc, 0, capacity)?;
        Ok(BufReader { reader, buffer, taken: 0, filled: 0 })
    }

    /// The reader below. What was read ahead is gone.
    pub fn into_inner(self) -> R {
        self.reader
    }
}

impl<R: Read> Read for BufReader<R> {
    fn read(&mut self, buffer: &mut [u8]) -> Result<usize> {
        let mut ahead = self.fill_buf()?;
        let count = ahead.read(buffer)?;
        self.consume(count);
        Ok(count)
    }
}

impl<R: Read> BufRead for BufReader<R> {
    fn fill_buf(&mut self) -> Result<&[u8]> {
        if self.taken == self.filled {
            self.taken = 0;
            self.filled = 0;
            self.filled = self.reader.read(&mut self.buffer)?;
        }
        Ok(&self.buffer[self.taken..self.filled])
    }

    fn consume(&mut self, count: usize) {
        self.taken = self.filled.min(self.taken + count);
    }
}

#[cfg(test)]
mod tests {
    use super::*;

    #[test]
    fn reads_what_the_reader_below_reads() {
        let text: std::vec::Vec<u8> = (0..=255).cycle().take(1000).collect();
        for capacity in [1, 7, 8, 4096] {
            let mut reader = BufReader::with_capacity(Global, capacity, text.as_slice()).unwrap();
            let mut first = [0; 10];
            reader.read_exact(&mut first).unwrap();
            let mut rest = std::vec::Vec::new();
            reader.read_to_end(&mut rest).unwrap();
            assert_eq!([first.as_slice(), &rest].concat(), text);
        }
    }

    #[test]
    fn reads_lines() {
        let mut reader = BufReader::with_capacity(Global, 4, b"one\n\nthree and four".as_slice()).unwrap();
        let mut line = Vec::new(Global);
        let counts = [(); 4].map(|_| reader.read_until(b'\n', &mut line).unwrap());
        assert_eq!((counts, line.as_slice()), ([4, 1, 14, 0], b"one\n\nthree and four".as_slice()));
    }

    #[test]
    fn reads_ahead_as_much_as_its_capacity() {
        let mut reader = BufReader::with_capacity(Global, 3, b"abcdef".as_slice()).unwrap();
        assert_eq!(reader.fill_buf().unwrap(), b"abc");
        reader.consume(2);
        assert_eq!(reader.fill_buf().unwrap(), b"c");
        assert_eq!(reader.into_inner(), b"def");
    }
}
