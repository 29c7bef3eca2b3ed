//! Traits that have no method when the program runs.

pub use std::marker::PhantomData;

/// A type that contracts see as another value.
pub trait Model {}

/// A value that may be let go. Here every value may.
pub trait Drop {}

impl<T: ?Sized> Drop for T {}
