//! Texts that take an allocator. Of stock Rust's methods only those of `str` are found by themselves.

use crate::alloc::{AllocError, Global};
use crate::memory::may_fail;
use crate::vec::Vec;
use std::fmt;
use std::ops::Deref;

pub use std::string::FromUtf8Error;

/// A text that says so where it can't grow.
#[derive(Debug, PartialEq, Eq, PartialOrd, Ord, Hash)]
pub struct String(std::string::String);

impl String {
    /// The empty text.
    pub const fn new(_alloc: Global) -> String {
        String(std::string::String::new())
    }

    /// A copy of this text.
    pub fn from_str(alloc: Global, text: &str) -> Result<String, AllocError> {
        let mut made = String::new(alloc);
        made.push_str(text)?;
        Ok(made)
    }

    /// The text of these bytes.
    pub fn from_utf8(bytes: Vec<u8>) -> Result<String, FromUtf8Error> {
        std::string::String::from_utf8(bytes.0).map(String)
    }

    /// What `format!` makes.
    #[doc(hidden)]
    pub fn of_arguments(alloc: Global, said: fmt::Arguments<'_>) -> Result<String, AllocError> {
        let mut made = String::new(alloc);
        made.write_fmt(said)?;
        Ok(made)
    }

    /// Makes room for `count` further bytes.
    pub fn reserve(&mut self, count: usize) -> Result<(), AllocError> {
        may_fail(|| self.0.try_reserve(count)).map_err(|_| AllocError)
    }

    /// Adds a text.
    pub fn push_str(&mut self, text: &str) -> Result<(), AllocError> {
        self.reserve(text.len())?;
        self.0.push_str(text);
        Ok(())
    }

    /// Adds a character.
    pub fn push(&mut self, letter: char) -> Result<(), AllocError> {
        self.reserve(letter.len_utf8())?;
        self.0.push(letter);
        Ok(())
    }

    /// Adds what `write!` formats, or nothing where there is no memory for all of it.
    pub fn write_fmt(&mut self, said: fmt::Arguments<'_>) -> Result<(), AllocError> {
        struct Growing<'a>(&'a mut String);

        impl fmt::Write for Growing<'_> {
            fn write_str(&mut self, text: &str) -> fmt::Result {
                self.0.push_str(text).map_err(|_| fmt::Error)
            }
        }

        let before = self.0.len();
        fmt::Write::write_fmt(&mut Growing(self), said).map_err(|_| {
            self.0.truncate(before);
            AllocError
        })
    }

    /// A copy.
    #[expect(clippy::should_implement_trait, reason = "the kit's copy needs memory")]
    pub fn clone(&self) -> Result<String, AllocError> {
        String::from_str(Global, &self.0)
    }

    /// The bytes.
    pub fn into_bytes(self) -> Vec<u8> {
        Vec(self.0.into_bytes())
    }

    /// The text.
    pub fn as_str(&self) -> &str {
        &self.0
    }

    /// The allocator that the text was made with.
    pub fn allocator(&self) -> &Global {
        &Global
    }
}

impl Deref for String {
    type Target = str;

    fn deref(&self) -> &str {
        &self.0
    }
}

impl fmt::Display for String {
    fn fmt(&self, f: &mut fmt::Formatter<'_>) -> fmt::Result {
        self.0.fmt(f)
    }
}

/// `to_string` with an allocator, which the translator calls by this name.
pub trait ToStringIn: fmt::Display {
    /// What the value shows as.
    fn to_string_in(&self, alloc: Global) -> Result<String, AllocError> {
        String::of_arguments(alloc, format_args!("{self}"))
    }
}

impl<T: fmt::Display + ?Sized> ToStringIn for T {}
