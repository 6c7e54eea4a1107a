//! Maps whose allocations can fail.
use super::alloc::{AllocError, Allocator, Global};
use core::mem::size_of;
use rust_alloc::collections::BTreeMap as Map;

/// A map in the order of its keys. Its allocator is asked for leave for each new key; if the global allocator has no memory, it aborts.
pub struct BTreeMap<K, V, A = Global> {
    map: Map<K, V>,
    alloc: A,
}

impl<K: Ord, V, A: Allocator> BTreeMap<K, V, A> {
    pub fn new(alloc: A) -> Self {
        BTreeMap { map: Map::new(), alloc }
    }

    pub fn insert(&mut self, key: K, value: V) -> Result<Option<V>, AllocError> {
        if !self.map.contains_key(&key) {
            self.alloc.allocate(size_of::<(K, V)>(), align_of::<(K, V)>())?;
        }
        Ok(self.map.insert(key, value))
    }

    pub fn get(&self, key: &K) -> Option<&V> {
        self.map.get(key)
    }

    pub fn contains_key(&self, key: &K) -> bool {
        self.map.contains_key(key)
    }

    pub fn len(&self) -> usize {
        self.map.len()
    }

    pub fn is_empty(&self) -> bool {
        self.map.is_empty()
    }
}
