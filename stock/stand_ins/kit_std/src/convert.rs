//! What is a text.

use crate::string::String;

/// A value that is a text.
pub trait AsStr {
    /// The text.
    fn as_str(&self) -> &str;
}

impl AsStr for String {
    fn as_str(&self) -> &str {
        self
    }
}

impl AsStr for &str {
    fn as_str(&self) -> &str {
        self
    }
}
