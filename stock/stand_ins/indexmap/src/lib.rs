//! A set that keeps the order in which its keys came: the published `indexmap`, as far as the crates call it.

use kit_std::alloc::{AllocError, AllocFailed, Global};
use kit_std::vec::Vec;
use std::borrow::Borrow;
use std::hash::{DefaultHasher, Hash, Hasher};

/// Fewest slots of a set that has any.
const FEWEST: usize = 16;

/// Keys in the order in which they came, and where each stands.
pub struct IndexSet<K> {
    keys: Vec<K>,
    /// A power of two of slots, at most half of which are taken, or none: each is 0, or one more than a key's place.
    slots: Vec<u32>,
}

impl<K: Hash + Eq> IndexSet<K> {
    /// The empty set.
    pub fn new(alloc: Global) -> Self {
        IndexSet { keys: Vec::new(alloc), slots: Vec::new(alloc) }
    }

    /// How many keys there are.
    pub fn len(&self) -> usize {
        self.keys.len()
    }

    /// Whether there is no key.
    pub fn is_empty(&self) -> bool {
        self.keys.is_empty()
    }

    /// The key that came after `place` others.
    pub fn get_index(&self, place: usize) -> Option<&K> {
        self.keys.get(place)
    }

    /// How many keys came before this one.
    pub fn get_index_of<Q: Hash + Eq + ?Sized>(&self, key: &Q) -> Option<usize>
    where
        K: Borrow<Q>,
    {
        if self.slots.is_empty() {
            return None;
        }
        (self.slots[self.slot_of(key)] as usize).checked_sub(1)
    }

    /// Adds a key after the others: whether it wasn't there. Without memory it comes back.
    pub fn insert(&mut self, key: K) -> Result<bool, AllocFailed<K>> {
        if self.make_room().is_err() {
            return Err(AllocFailed(key));
        }
        let slot = self.slot_of(&key);
        if self.slots[slot] != 0 {
            return Ok(false);
        }
        self.keys.push(key)?;
        self.slots[slot] = self.keys.len() as u32;
        Ok(true)
    }

    /// The slot of this key, or the free one where it belongs. There is a free one.
    fn slot_of<Q: Hash + Eq + ?Sized>(&self, key: &Q) -> usize
    where
        K: Borrow<Q>,
    {
        let mut hasher = DefaultHasher::new();
        key.hash(&mut hasher);
        let last = self.slots.len() - 1;
        let mut slot = hasher.finish() as usize & last;
        loop {
            match self.slots[slot] {
                0 => return slot,
                place if self.keys[place as usize - 1].borrow() == key => return slot,
                _ => slot = (slot + 1) & last,
            }
        }
    }

    /// Makes slots for a further key, twice as many where half of them would be taken. A place fits a slot.
    fn make_room(&mut self) -> Result<(), AllocError> {
        let wanted = self.keys.len() + 1;
        if wanted >= u32::MAX as usize {
            return Err(AllocError);
        }
        if 2 * wanted <= self.slots.len() {
            return Ok(());
        }
        self.slots = Vec::from_elem(Global, 0, (2 * self.slots.len()).max(FEWEST))?;
        for place in 0..self.keys.len() {
            let slot = self.slot_of(&self.keys[place]);
            self.slots[slot] = place as u32 + 1;
        }
        Ok(())
    }
}

#[cfg(test)]
mod tests {
    use super::*;

    #[test]
    fn keys_keep_their_order() {
        let mut set = IndexSet::new(Global);
        for key in 0..1000u32 {
            assert_eq!(set.insert(key * 7919 % 1009).ok(), Some(true));
        }
        assert_eq!(set.len(), 1000);
        for place in 0..1000 {
            let key = place as u32 * 7919 % 1009;
            assert_eq!((set.get_index(place), set.get_index_of(&key)), (Some(&key), Some(place)));
        }
        assert_eq!((set.get_index(1000), set.get_index_of(&2000)), (None, None));
    }

    #[test]
    fn a_key_comes_once() {
        let mut set = IndexSet::new(Global);
        assert!(set.is_empty());
        assert_eq!(set.get_index_of("a"), None);
        let added = ["a", "b", "a"].map(|key| set.insert(key.to_owned()).ok());
        assert_eq!(added, [Some(true), Some(true), Some(false)]);
        assert_eq!((set.len(), set.get_index_of("b")), (2, Some(1)));
    }
}
