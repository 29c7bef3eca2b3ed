//! Vectors that take an allocator. Of stock Rust's methods only those of slices are found by themselves.

use crate::alloc::{AllocError, AllocFailed, Global};
use crate::memory::may_fail;
use std::borrow::Borrow;
use std::ops::{Deref, DerefMut};

/// A vector that says so where it can't grow.
#[derive(Debug, PartialEq, Eq, PartialOrd, Ord, Hash)]
pub struct Vec<T>(pub(crate) std::vec::Vec<T>);

impl<T> Vec<T> {
    /// The empty vector.
    #[inline]
    pub const fn new(_alloc: Global) -> Self {
        Vec(std::vec::Vec::new())
    }

    /// The empty vector with room for `count` items.
    pub fn with_capacity(alloc: Global, count: usize) -> Result<Self, AllocError> {
        let mut made = Vec::new(alloc);
        made.reserve(count)?;
        Ok(made)
    }

    /// A copy of these items.
    pub fn from_slice(alloc: Global, items: &[T]) -> Result<Self, AllocError>
    where
        T: Copy,
    {
        let mut made = Vec::with_capacity(alloc, items.len())?;
        made.0.extend_from_slice(items);
        Ok(made)
    }

    /// These items.
    pub fn from_array<const N: usize>(alloc: Global, items: [T; N]) -> Result<Self, AllocError> {
        let mut made = Vec::with_capacity(alloc, N)?;
        made.0.extend(items);
        Ok(made)
    }

    /// `count` times this item.
    pub fn from_elem(alloc: Global, item: T, count: usize) -> Result<Self, AllocError>
    where
        T: Copy,
    {
        let mut made = Vec::new(alloc);
        made.resize(count, item)?;
        Ok(made)
    }

    /// Makes room for `count` further items.
    #[inline]
    pub fn reserve(&mut self, count: usize) -> Result<(), AllocError> {
        if self.0.capacity() - self.0.len() >= count {
            return Ok(());
        }
        may_fail(|| self.0.try_reserve(count)).map_err(|_| AllocError)
    }

    /// Adds an item, or gives it back.
    #[inline]
    pub fn push(&mut self, item: T) -> Result<(), AllocFailed<T>> {
        if self.reserve(1).is_err() {
            return Err(AllocFailed(item));
        }
        self.push_reserved(item);
        Ok(())
    }

    /// Adds an item for which there is room.
    #[inline]
    pub fn push_reserved(&mut self, item: T) {
        self.0.push(item);
    }

    /// Puts an item at `place`, or gives it back.
    pub fn insert(&mut self, place: usize, item: T) -> Result<(), AllocFailed<T>> {
        if self.reserve(1).is_err() {
            return Err(AllocFailed(item));
        }
        self.0.insert(place, item);
        Ok(())
    }

    /// Adds a copy of these items.
    #[inline]
    pub fn extend_from_slice(&mut self, items: &[T]) -> Result<(), AllocError>
    where
        T: Copy,
    {
        self.reserve(items.len())?;
        self.0.extend_from_slice(items);
        Ok(())
    }

    /// Cuts the vector to `count` items, or adds this one until there are as many.
    pub fn resize(&mut self, count: usize, item: T) -> Result<(), AllocError>
    where
        T: Copy,
    {
        self.reserve(count.saturating_sub(self.0.len()))?;
        self.0.resize(count, item);
        Ok(())
    }

    /// Cuts the vector to `count` items, or adds made ones until there are as many.
    pub fn resize_with(&mut self, count: usize, make: impl FnMut() -> T) -> Result<(), AllocError> {
        self.reserve(count.saturating_sub(self.0.len()))?;
        self.0.resize_with(count, make);
        Ok(())
    }

    /// A copy.
    #[expect(clippy::should_implement_trait, reason = "the kit's copy needs memory")]
    pub fn clone(&self) -> Result<Self, AllocError>
    where
        T: Copy,
    {
        Vec::from_slice(Global, &self.0)
    }

    /// The last item, taken.
    #[inline]
    pub fn pop(&mut self) -> Option<T> {
        self.0.pop()
    }

    /// The item at `place`, taken; the later ones move up.
    pub fn remove(&mut self, place: usize) -> T {
        self.0.remove(place)
    }

    /// Drops what comes after the first `count` items.
    #[inline]
    pub fn truncate(&mut self, count: usize) {
        self.0.truncate(count);
    }

    /// Drops all items.
    #[inline]
    pub fn clear(&mut self) {
        self.0.clear();
    }

    /// How many items there is room for.
    pub fn capacity(&self) -> usize {
        self.0.capacity()
    }

    /// The items.
    #[inline]
    pub fn as_slice(&self) -> &[T] {
        &self.0
    }

    /// The items, which may be changed.
    #[inline]
    pub fn as_mut_slice(&mut self) -> &mut [T] {
        &mut self.0
    }

    /// The allocator that the vector was made with.
    pub fn allocator(&self) -> &Global {
        &Global
    }

    /// Lets a vector go that has no items left.
    pub fn destroy_empty(self) {}
}

impl<T> Deref for Vec<T> {
    type Target = [T];

    #[inline]
    fn deref(&self) -> &[T] {
        &self.0
    }
}

impl<T> DerefMut for Vec<T> {
    #[inline]
    fn deref_mut(&mut self) -> &mut [T] {
        &mut self.0
    }
}

impl<T> Borrow<[T]> for Vec<T> {
    fn borrow(&self) -> &[T] {
        &self.0
    }
}

impl<T> IntoIterator for Vec<T> {
    type Item = T;
    type IntoIter = IntoIter<T>;

    #[inline]
    fn into_iter(self) -> IntoIter<T> {
        IntoIter(self.0.into_iter())
    }
}

impl<'a, T> IntoIterator for &'a Vec<T> {
    type Item = &'a T;
    type IntoIter = std::slice::Iter<'a, T>;

    #[inline]
    fn into_iter(self) -> std::slice::Iter<'a, T> {
        self.0.iter()
    }
}

impl<'a, T> IntoIterator for &'a mut Vec<T> {
    type Item = &'a mut T;
    type IntoIter = std::slice::IterMut<'a, T>;

    #[inline]
    fn into_iter(self) -> std::slice::IterMut<'a, T> {
        self.0.iter_mut()
    }
}

/// The items of a vector that is given up.
pub struct IntoIter<T>(std::vec::IntoIter<T>);

impl<T> IntoIter<T> {
    /// Lets the rest of a vector go that has no items left.
    pub fn destroy_empty(self) {}
}

impl<T> Iterator for IntoIter<T> {
    type Item = T;

    #[inline]
    fn next(&mut self) -> Option<T> {
        self.0.next()
    }

    #[inline]
    fn size_hint(&self) -> (usize, Option<usize>) {
        self.0.size_hint()
    }
}

/// `collect` with an allocator, which the translator calls by this name.
pub trait CollectIn: Iterator + Sized {
    /// All items, in order.
    fn collect_in(self, alloc: Global) -> Result<Vec<Self::Item>, AllocError> {
        let mut made = Vec::new(alloc);
        for item in self {
            made.push(item)?;
        }
        Ok(made)
    }
}

impl<I: Iterator> CollectIn for I {}

/// `to_vec` with an allocator, which the translator calls by this name.
pub trait ToVecIn<T: Copy> {
    /// A copy of the items.
    fn to_vec_in(&self, alloc: Global) -> Result<Vec<T>, AllocError>;
}

impl<T: Copy> ToVecIn<T> for [T] {
    fn to_vec_in(&self, alloc: Global) -> Result<Vec<T>, AllocError> {
        Vec::from_slice(alloc, self)
    }
}
