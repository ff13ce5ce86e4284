//! The state of a decision, and what changes it.

use super::{
    Machine,
    lists::{Entry, Key, Timer, leave_out, put_in},
    machine::{Cpu, Record},
};
use crate::{Call, ROOM, View, block as b, context as c};

/// The weight of a priority.
pub type Weight = fn(u64) -> u64;

pub struct State {
    pub machine: Machine,
    pub here: usize,
    pub time: u64,
    pub weight: Weight,
    /// An insertion left more items than there is room for.
    pub no_room: bool,
}

/// The key that a record has.
pub fn queue_key(record: &Record) -> Option<Key> {
    (record[c::HAS_QUEUE_KEY] == 1).then(|| Key {
        vd: record[c::QUEUE_KEY_VD],
        rem_slice: record[c::QUEUE_KEY_REM_SLICE],
        id: record[c::DEBUG_ID],
    })
}

pub fn without_key(record: &mut Record) {
    record[c::HAS_QUEUE_KEY] = 0;
    record[c::QUEUE_KEY_VD] = 0;
    record[c::QUEUE_KEY_REM_SLICE] = 0;
}

/// The record's deadline and slice become its key.
pub fn with_new_key(record: &mut Record) -> Key {
    record[c::HAS_QUEUE_KEY] = 1;
    record[c::QUEUE_KEY_VD] = record[c::VD];
    record[c::QUEUE_KEY_REM_SLICE] = record[c::REM_SLICE];
    Key {
        vd: record[c::VD],
        rem_slice: record[c::REM_SLICE],
        id: record[c::DEBUG_ID],
    }
}

impl State {
    pub fn new(image: &[u64], call: &Call, weight: Weight) -> Self {
        Self {
            machine: Machine::new(View(image)),
            here: call.cpu as usize,
            time: call.time,
            weight,
            no_room: false,
        }
    }
    pub fn cpu(&self) -> &Cpu {
        &self.machine.cpus[self.here]
    }
    pub fn cpu_mut(&mut self) -> &mut Cpu {
        &mut self.machine.cpus[self.here]
    }
    pub fn word(&self, word: usize) -> u64 {
        self.cpu().word[word]
    }
    pub fn set(&mut self, word: usize, value: u64) {
        self.cpu_mut().word[word] = value;
    }
    pub fn record(&self, context: usize) -> &Record {
        &self.machine.records[context]
    }
    pub fn record_mut(&mut self, context: usize) -> &mut Record {
        &mut self.machine.records[context]
    }
    pub fn sched(&self) -> usize {
        self.word(b::SCHED_CTXT) as usize
    }
    pub fn current(&self) -> usize {
        self.word(b::CURRENT_CTXT) as usize
    }
    pub fn idle(&self) -> usize {
        self.word(b::IDLE_CTXT) as usize
    }
    pub fn is_idle(&self) -> bool {
        self.sched() == self.idle()
    }
    /// A holder other than idle that is runnable.
    pub fn holder_runs(&self) -> bool {
        !self.is_idle() && self.record(self.sched())[c::STATUS] == c::RUNNABLE
    }

    fn filled(&mut self, items: usize) {
        self.no_room |= items > ROOM;
    }
    fn publish_length(&mut self) {
        let length = self.cpu().queue.len();
        self.set(b::QUEUE_LEN, length as u64);
    }
    pub fn insert_entry(&mut self, entry: Entry) {
        put_in(&mut self.cpu_mut().queue, entry);
        self.publish_length();
        self.filled(self.cpu().queue.len());
    }
    pub fn remove_key(&mut self, key: Key) {
        leave_out(&mut self.cpu_mut().queue, key);
        self.publish_length();
    }
    pub fn insert_timer(&mut self, timer: Timer) {
        put_in(&mut self.cpu_mut().timers, timer);
        self.filled(self.cpu().timers.len());
    }
    /// The newest timer of a context stands alone.
    pub fn insert_newest_timer(&mut self, timer: Timer) {
        let others = |other: &Timer| other.context != timer.context || other.wake == timer.wake;
        self.cpu_mut().timers.retain(others);
        self.insert_timer(timer);
    }
    pub fn push_local(&mut self, context: usize) {
        self.cpu_mut().local.push(context as u64);
        self.filled(self.cpu().local.len());
    }
}
