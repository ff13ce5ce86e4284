//! Turns: items in any order, found by counting those that come before them.

use std::cmp::Reverse;

/// A key of the queue.
#[derive(Clone, Copy, Debug, PartialEq, Eq)]
pub struct Key {
    pub vd: u64,
    pub rem_slice: u64,
    pub id: u64,
}

#[derive(Clone, Copy, Debug, PartialEq, Eq)]
pub struct Entry {
    pub key: Key,
    pub vtime: u64,
    pub weight: u64,
    pub context: usize,
}

#[derive(Clone, Copy, Debug, PartialEq, Eq)]
pub struct Timer {
    pub wake: u64,
    pub context: usize,
}

pub trait Turn: Copy {
    type Key: Copy;
    fn key(&self) -> Self::Key;
    fn before(one: Self::Key, other: Self::Key) -> bool;
}

/// By deadline, then the larger slice, then the id.
impl Turn for Entry {
    type Key = Key;
    fn key(&self) -> Key {
        self.key
    }
    fn before(one: Key, other: Key) -> bool {
        let order = |key: Key| (key.vd, Reverse(key.rem_slice), key.id);
        order(one) < order(other)
    }
}

/// By wake, then context.
impl Turn for Timer {
    type Key = Timer;
    fn key(&self) -> Timer {
        *self
    }
    fn before(one: Timer, other: Timer) -> bool {
        (one.wake, one.context) < (other.wake, other.context)
    }
}

/// How many come before it.
pub fn rank<T: Turn>(items: &[T], item: &T) -> usize {
    let before = |other: &&T| T::before(other.key(), item.key());
    items.iter().filter(before).count()
}

/// Everybody, one turn after the other.
pub fn by_rank<T: Turn>(items: &[T]) -> Vec<T> {
    let ranks: Vec<usize> = items.iter().map(|item| rank(items, item)).collect();
    let mut all = Vec::new();
    for turn in 0..items.len() {
        let here = ranks.iter().zip(items).filter(|(rank, _)| **rank == turn);
        all.extend(here.map(|(_, item)| *item));
    }
    all
}

/// Without the item of this key, wherever it stands.
pub fn leave_out<T: Turn>(items: &mut Vec<T>, key: T::Key) {
    items.retain(|item| T::before(item.key(), key) || T::before(key, item.key()));
}

/// Behind the others, in place of the item of its key.
pub fn put_in<T: Turn>(items: &mut Vec<T>, item: T) {
    leave_out(items, item.key());
    items.push(item);
}
