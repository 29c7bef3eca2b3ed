//! Maps that take an allocator.

use crate::alloc::{AllocFailed, Global};
use crate::memory::may_fail;
use std::borrow::Borrow;
use std::collections;
use std::hash::Hash;

/// Stock Rust's map by hashes, which says so where it can't grow.
pub struct HashMap<K, V>(collections::HashMap<K, V>);

impl<K: Hash + Eq, V> HashMap<K, V> {
    /// The empty map.
    pub fn new(_alloc: Global) -> Self {
        HashMap(collections::HashMap::new())
    }

    /// Puts a value at a key and returns the one that stood there, or gives both back.
    pub fn insert(&mut self, key: K, value: V) -> Result<Option<V>, AllocFailed<(K, V)>> {
        if may_fail(|| self.0.try_reserve(1)).is_err() {
            return Err(AllocFailed((key, value)));
        }
        Ok(self.0.insert(key, value))
    }

    /// The value at a key.
    pub fn get<Q: Hash + Eq + ?Sized>(&self, key: &Q) -> Option<&V>
    where
        K: Borrow<Q>,
    {
        self.0.get(key)
    }

    /// Whether a key has a value.
    pub fn contains_key<Q: Hash + Eq + ?Sized>(&self, key: &Q) -> bool
    where
        K: Borrow<Q>,
    {
        self.0.contains_key(key)
    }
}

/// Stock Rust's map by order. It can't say that there is no memory: then the process ends.
pub struct BTreeMap<K, V>(collections::BTreeMap<K, V>);

impl<K: Ord, V> BTreeMap<K, V> {
    /// The empty map.
    pub fn new(_alloc: Global) -> Self {
        BTreeMap(collections::BTreeMap::new())
    }

    /// Puts a value at a key and returns the one that stood there.
    pub fn insert(&mut self, key: K, value: V) -> Result<Option<V>, AllocFailed<(K, V)>> {
        Ok(self.0.insert(key, value))
    }

    /// The value at a key.
    pub fn get<Q: Ord + ?Sized>(&self, key: &Q) -> Option<&V>
    where
        K: Borrow<Q>,
    {
        self.0.get(key)
    }

    /// The value at a key, which may be changed.
    pub fn get_mut<Q: Ord + ?Sized>(&mut self, key: &Q) -> Option<&mut V>
    where
        K: Borrow<Q>,
    {
        self.0.get_mut(key)
    }

    /// How many keys there are.
    #[expect(clippy::len_without_is_empty, reason = "the crates don't call it")]
    pub fn len(&self) -> usize {
        self.0.len()
    }

    /// The keys with their values, in the keys' order.
    pub fn iter(&self) -> collections::btree_map::Iter<'_, K, V> {
        self.0.iter()
    }
}

impl<K, V> IntoIterator for BTreeMap<K, V> {
    type Item = (K, V);
    type IntoIter = collections::btree_map::IntoIter<K, V>;

    fn into_iter(self) -> Self::IntoIter {
        self.0.into_iter()
    }
}

impl<'a, K, V> IntoIterator for &'a BTreeMap<K, V> {
    type Item = (&'a K, &'a V);
    type IntoIter = collections::btree_map::Iter<'a, K, V>;

    fn into_iter(self) -> Self::IntoIter {
        self.0.iter()
    }
}
