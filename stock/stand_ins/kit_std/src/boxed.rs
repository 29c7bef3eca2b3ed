//! Boxes that take an allocator.

use crate::alloc::{AllocFailed, Global};
use crate::memory::may_fail;
use std::ops::{Deref, DerefMut};

/// A value on the heap: a vector of one item, which can say that there is no memory for it.
#[derive(Debug, PartialEq, Eq)]
pub struct Box<T>(std::vec::Vec<T>);

impl<T> Box<T> {
    /// This value on the heap. It comes back where there is no memory.
    pub fn new(_alloc: Global, value: T) -> Result<Self, AllocFailed<T>> {
        let mut held = std::vec::Vec::new();
        match may_fail(|| held.try_reserve_exact(1)) {
            Ok(()) => {
                held.push(value);
                Ok(Box(held))
            }
            Err(_) => Err(AllocFailed(value)),
        }
    }
}

impl<T> Deref for Box<T> {
    type Target = T;

    #[inline]
    fn deref(&self) -> &T {
        &self.0[0]
    }
}

impl<T> DerefMut for Box<T> {
    #[inline]
    fn deref_mut(&mut self) -> &mut T {
        &mut self.0[0]
    }
}
