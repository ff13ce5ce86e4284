use std::ops::{Deref, DerefMut};

#[derive(Debug)]
pub struct BTreeMap<K, V> {
    items: std::collections::BTreeMap<K, V>,
    pub peak: usize,
}

impl<K: Ord, V> BTreeMap<K, V> {
    pub const fn new() -> Self {
        Self {
            items: std::collections::BTreeMap::new(),
            peak: 0,
        }
    }
    pub fn insert(&mut self, key: K, value: V) -> Option<V> {
        let old = self.items.insert(key, value);
        self.peak = self.peak.max(self.items.len());
        old
    }
}

impl<K, V> Deref for BTreeMap<K, V> {
    type Target = std::collections::BTreeMap<K, V>;
    fn deref(&self) -> &Self::Target {
        &self.items
    }
}

impl<K, V> DerefMut for BTreeMap<K, V> {
    fn deref_mut(&mut self) -> &mut Self::Target {
        &mut self.items
    }
}

#[derive(Debug)]
pub struct BTreeSet<T> {
    items: std::collections::BTreeSet<T>,
    pub peak: usize,
}

impl<T: Ord> BTreeSet<T> {
    pub const fn new() -> Self {
        Self {
            items: std::collections::BTreeSet::new(),
            peak: 0,
        }
    }
    pub fn insert(&mut self, item: T) -> bool {
        let new = self.items.insert(item);
        self.peak = self.peak.max(self.items.len());
        new
    }
    pub fn extend<I: IntoIterator<Item = T>>(&mut self, items: I) {
        for item in items {
            self.insert(item);
        }
    }
}

impl<T> Deref for BTreeSet<T> {
    type Target = std::collections::BTreeSet<T>;
    fn deref(&self) -> &Self::Target {
        &self.items
    }
}

impl<T> DerefMut for BTreeSet<T> {
    fn deref_mut(&mut self) -> &mut Self::Target {
        &mut self.items
    }
}
