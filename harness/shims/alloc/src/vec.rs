use std::ops::{Deref, DerefMut};

#[derive(Debug)]
pub struct Vec<T> {
    items: std::vec::Vec<T>,
    pub peak: usize,
}

impl<T> Vec<T> {
    pub const fn new() -> Self {
        Self {
            items: std::vec::Vec::new(),
            peak: 0,
        }
    }
    pub fn push(&mut self, item: T) {
        self.items.push(item);
        self.note();
    }
    pub fn extend<I: IntoIterator<Item = T>>(&mut self, items: I) {
        for item in items {
            self.push(item);
        }
    }
    fn note(&mut self) {
        self.peak = self.peak.max(self.items.len());
    }
}

impl<T> Default for Vec<T> {
    fn default() -> Self {
        Self::new()
    }
}

impl<T> Deref for Vec<T> {
    type Target = std::vec::Vec<T>;
    fn deref(&self) -> &Self::Target {
        &self.items
    }
}

impl<T> DerefMut for Vec<T> {
    fn deref_mut(&mut self) -> &mut Self::Target {
        &mut self.items
    }
}

impl<T> FromIterator<T> for Vec<T> {
    fn from_iter<I: IntoIterator<Item = T>>(items: I) -> Self {
        let mut vec = Self::new();
        vec.extend(items);
        vec
    }
}

impl<T> IntoIterator for Vec<T> {
    type Item = T;
    type IntoIter = std::vec::IntoIter<T>;
    fn into_iter(self) -> Self::IntoIter {
        self.items.into_iter()
    }
}
