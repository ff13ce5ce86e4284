//! The run queue's private fields, for loading and storing.

use super::{Arc, ContextLock, ContextQueueKey, ContextQueueValue, Reverse, RunContextData};
use super::{Weak, WeakContextRef};

pub struct Entry {
    pub vd: u64,
    pub rem_slice: u64,
    pub ctxt_id: u32,
    pub vtime: u64,
    pub weight: u64,
    pub context: Weak<ContextLock>,
}

pub fn key(vd: u64, rem_slice: u64, ctxt_id: u32) -> ContextQueueKey {
    ContextQueueKey {
        vd,
        rem_slice: Reverse(rem_slice),
        ctxt_id,
    }
}

/// A key's vd, slice and id.
pub fn parts(key: &ContextQueueKey) -> (u64, u64, u32) {
    (key.vd, key.rem_slice.0, key.ctxt_id)
}

impl RunContextData {
    pub fn put_entry(&mut self, entry: Entry) {
        let value = ContextQueueValue {
            vtime: entry.vtime,
            weight: entry.weight,
            context_ref: WeakContextRef(entry.context),
        };
        self.queue
            .insert(key(entry.vd, entry.rem_slice, entry.ctxt_id), value);
    }
    pub fn put_timer(&mut self, wake: u128, context: Weak<ContextLock>) {
        self.timers.insert((wake, WeakContextRef(context)));
    }
    pub fn put_virtual(&mut self, v: u64, total_weight: u64) {
        self.v = v;
        self.total_weight = total_weight;
    }

    pub fn entries(&self) -> impl Iterator<Item = Entry> {
        self.queue.iter().map(|(key, value)| Entry {
            vd: key.vd,
            rem_slice: key.rem_slice.0,
            ctxt_id: key.ctxt_id,
            vtime: value.vtime,
            weight: value.weight,
            context: value.context_ref.0.clone(),
        })
    }
    pub fn timers(&self) -> impl Iterator<Item = &(u128, WeakContextRef)> {
        self.timers.iter()
    }
    /// V and the total weight.
    pub fn virtual_time(&self) -> (u64, u64) {
        (self.v, self.total_weight)
    }
    /// The greatest lengths of queue and timers.
    pub fn peaks(&self) -> [usize; 2] {
        [self.queue.peak, self.timers.peak]
    }
}
