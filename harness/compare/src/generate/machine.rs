//! A machine in parts, before it is laid out as an image.

use image::{ROOM, block as b, context as c, length};
use std::{cmp::Reverse, collections::BTreeSet};

#[derive(Clone, Copy)]
pub struct Entry {
    pub vd: u64,
    pub rem_slice: u64,
    pub vtime: u64,
    pub weight: u64,
    pub context: usize,
}

#[derive(Clone)]
pub struct Cpu {
    pub word: [u64; b::SINGLE],
    pub queue: Vec<Entry>,
    pub timers: Vec<(u64, usize)>,
    pub local: Vec<usize>,
    pub ipi: Vec<usize>,
    pub remainder: u64,
}

impl Cpu {
    /// A CPU of these words, with nothing in its lists.
    pub fn with(word: [u64; b::SINGLE]) -> Cpu {
        Cpu {
            word,
            queue: Vec::new(),
            timers: Vec::new(),
            local: Vec::new(),
            ipi: Vec::new(),
            remainder: 0,
        }
    }
}

#[derive(Clone)]
pub struct Machine {
    pub record: Vec<[u64; c::WORDS]>,
    pub cpu: Vec<Cpu>,
}

impl Cpu {
    pub fn present(&self) -> bool {
        self.word[b::PRESENT] == 1
    }
    pub fn sched(&self) -> usize {
        self.word[b::SCHED_CTXT] as usize
    }
}

impl Machine {
    pub fn id(&self, context: usize) -> u64 {
        self.record[context][c::DEBUG_ID]
    }
    pub fn live(&self, context: usize) -> bool {
        self.record[context][c::GONE] == 0
    }
    /// Sorts queue and timers, drops equal keys, all timers of a context but the one that came
    /// last, and what is over the room.
    pub fn settle(&mut self) {
        let ids: Vec<u64> = self.record.iter().map(|r| r[c::DEBUG_ID]).collect();
        for cpu in &mut self.cpu {
            let key = |e: &Entry| (e.vd, Reverse(e.rem_slice), ids[e.context]);
            cpu.queue.sort_by_key(key);
            cpu.queue.dedup_by_key(|e| key(e));
            cpu.queue.truncate(ROOM);
            cpu.timers.reverse();
            let mut timed = BTreeSet::new();
            cpu.timers.retain(|(_, context)| timed.insert(*context));
            cpu.timers.sort_unstable();
            cpu.local.truncate(ROOM);
            cpu.ipi.truncate(ROOM);
        }
    }
    pub fn image(&self) -> Vec<u64> {
        let (cpus, contexts) = (self.cpu.len(), self.record.len());
        let mut image = Vec::with_capacity(length(cpus, contexts));
        image.extend([cpus as u64, contexts as u64]);
        for record in &self.record {
            image.extend(record);
        }
        for cpu in &self.cpu {
            let at = image.len();
            image.resize(at + b::WORDS, 0);
            if cpu.present() {
                self.block(cpu, &mut image[at..]);
            }
        }
        image
    }
    fn block(&self, cpu: &Cpu, words: &mut [u64]) {
        words[..b::SINGLE].copy_from_slice(&cpu.word);
        words[b::QUEUE_COUNT] = cpu.queue.len() as u64;
        words[b::TIMERS_COUNT] = cpu.timers.len() as u64;
        words[b::LOCAL_COUNT] = cpu.local.len() as u64;
        words[b::IPI_COUNT] = cpu.ipi.len() as u64;
        for (slot, entry) in cpu.queue.iter().enumerate() {
            words[b::KEY_VD + slot] = entry.vd;
            words[b::KEY_REM_SLICE + slot] = entry.rem_slice;
            words[b::KEY_CTXT_ID + slot] = self.id(entry.context);
            words[b::ENTRY_VTIME + slot] = entry.vtime;
            words[b::ENTRY_WEIGHT + slot] = entry.weight;
            words[b::ENTRY_CONTEXT_REF + slot] = entry.context as u64;
        }
        for (slot, (wake, context)) in cpu.timers.iter().enumerate() {
            words[b::TIMER_WAKE + slot] = *wake;
            words[b::TIMER_CONTEXT_REF + slot] = *context as u64;
        }
        for (slot, context) in cpu.local.iter().enumerate() {
            words[b::LOCAL_WAKEUP_LIST + slot] = *context as u64;
        }
        for (slot, context) in cpu.ipi.iter().enumerate() {
            words[b::IPI_CONTEXT_WAKEUP_LIST + slot] = *context as u64;
        }
        words[b::REMAINDER] = cpu.remainder;
    }
}
