//! From what is written to words: what is not told is default, or follows from the rest.

use super::records::{EntryWords, NOBODY, Record, entry_words, records, seat};
use super::{Cpu, ENTRY_WORDS, Entry, Source};
use crate::places::{block, context};
use crate::tables::{ROOM, WEIGHTS};
use crate::view::{length, record_at};
use alloc::vec;
use alloc::vec::Vec;
use core::cmp::Reverse;

/// Words, and the line that each comes from.
pub struct Derived {
    pub words: Vec<u64>,
    pub lines: Vec<u32>,
}

impl Derived {
    fn put(&mut self, index: usize, value: u64, line: u32) {
        if let (Some(word), Some(at)) = (self.words.get_mut(index), self.lines.get_mut(index)) {
            *word = value;
            *at = line;
        }
    }
}

/// The weight of a priority; one that there is not weighs nothing.
pub fn weight(prio: u64) -> u64 {
    let at = usize::try_from(prio).ok();
    at.and_then(|at| WEIGHTS.get(at)).copied().unwrap_or(0)
}

fn of(records: &[Record], number: u64) -> &Record {
    let at = usize::try_from(number).ok();
    at.and_then(|at| records.get(at)).unwrap_or(&NOBODY)
}

pub fn derive(source: &Source) -> Derived {
    let (cpus, contexts) = (source.cpus.len(), source.contexts.len());
    let words = source.raw.unwrap_or(length(cpus, contexts));
    let mut derived = Derived {
        words: vec![0; words],
        lines: vec![0; words],
    };
    if source.raw.is_some() {
        return derived;
    }
    derived.words[0] = cpus as u64;
    derived.words[1] = contexts as u64;
    let records = records(source);
    for (number, record) in records.iter().enumerate() {
        let written = &source.contexts[number];
        for (word, value) in record.iter().enumerate() {
            let line = written.told[word].map_or(written.line, |(_, line)| line);
            derived.put(record_at(number) + word, *value, line);
        }
    }
    for (number, cpu) in source.cpus.iter().enumerate() {
        if let Some(cpu) = cpu {
            block_of(source, &records, number, cpu, &mut derived);
        }
    }
    derived
}

fn block_of(source: &Source, records: &[Record], cpu: usize, written: &Cpu, derived: &mut Derived) {
    let at = record_at(records.len()) + block::WORDS * cpu;
    let (entries, weights) = queue(source, records, cpu, at, derived);
    let timers = timers(source, records, cpu, at, derived);
    let local = list(source, cpu, false, at + block::LOCAL_WAKEUP_LIST, derived);
    let ipi = list(source, cpu, true, at + block::IPI_CONTEXT_WAKEUP_LIST, derived);
    let counts = [entries, timers, local, ipi];
    for (word, value) in singles(records, written, counts, weights).into_iter().enumerate() {
        let (value, line) = written.get(word).unwrap_or((value, written.line));
        derived.put(at + word, value, line);
    }
    for word in block::LAST..block::WORDS {
        let (value, line) = written.get(word).unwrap_or((0, written.line));
        derived.put(at + word, value, line);
    }
}

/// The entries in the order of their keys; how many there are, and their weight.
fn queue(source: &Source, records: &[Record], cpu: usize, at: usize, derived: &mut Derived) -> (u64, u64) {
    let here = source.queue.iter().filter(|entry| entry.cpu == cpu);
    let with_words = |entry| (entry, entry_words(entry, of(records, entry.context)));
    let mut queue: Vec<(&Entry, EntryWords)> = here.map(with_words).collect();
    queue.sort_by_key(|(_, words)| (words[0], Reverse(words[1]), words[2]));
    queue.truncate(ROOM as usize);
    for (slot, (entry, words)) in queue.iter().enumerate() {
        for (nth, (_, column, _)) in ENTRY_WORDS.iter().enumerate() {
            let line = entry.told[nth].map_or(entry.line, |(_, line)| line);
            derived.put(at + column + slot, words[nth], line);
        }
        derived.put(at + block::ENTRY_CONTEXT_REF + slot, entry.context, entry.line);
    }
    let weights = queue.iter().map(|(_, words)| words[4]);
    (queue.len() as u64, weights.fold(0, u64::saturating_add))
}

/// The timers in their order; how many there are.
fn timers(source: &Source, records: &[Record], cpu: usize, at: usize, derived: &mut Derived) -> u64 {
    let here = source.timers.iter().filter(|timer| timer.cpu == cpu);
    let mut timers: Vec<(u64, u64, u32)> = here
        .map(|timer| {
            let own = of(records, timer.context)[context::WAKE];
            (timer.wake.unwrap_or(own), timer.context, timer.line)
        })
        .collect();
    timers.sort_unstable();
    timers.truncate(ROOM as usize);
    for (slot, (wake, context, line)) in timers.iter().enumerate() {
        derived.put(at + block::TIMER_WAKE + slot, *wake, *line);
        derived.put(at + block::TIMER_CONTEXT_REF + slot, *context, *line);
    }
    timers.len() as u64
}

fn list(source: &Source, cpu: usize, interrupt: bool, at: usize, derived: &mut Derived) -> u64 {
    let here = source.lists.iter();
    let here = here.filter(|listed| (listed.cpu, listed.interrupt) == (cpu, interrupt));
    let mut count = 0;
    for listed in here.take(ROOM as usize) {
        derived.put(at + count, listed.context, listed.line);
        count += 1;
    }
    count as u64
}

fn singles(records: &[Record], cpu: &Cpu, counts: [u64; 4], queued: u64) -> [u64; block::SINGLE] {
    let seats = [block::CURRENT_CTXT, block::SCHED_CTXT, block::IDLE_CTXT];
    let [current, sched, idle] = seats.map(|word| seat(cpu, word));
    let (holder, runs) = (of(records, sched), of(records, current));
    let own = holder[context::IS_ACTIVE].min(1) * weight(holder[context::PRIO]);
    let told = cpu.get(block::TOTAL_WEIGHT).map(|(value, _)| value);
    let total = told.unwrap_or(queued.saturating_add(own));
    let mut words = [0; block::SINGLE];
    words[block::PRESENT] = 1;
    words[block::CURRENT_CTXT] = current;
    words[block::SCHED_CTXT] = sched;
    words[block::IDLE_CTXT] = idle;
    words[block::STEALABLE] = u64::from(counts[0] > 0);
    words[block::QUEUE_LEN] = counts[0];
    words[block::PUBLISHED_WEIGHT] = total;
    words[block::STATE] = match runs[context::USERSPACE] {
        _ if current == idle => 0,
        1 => 2,
        _ => 1,
    };
    words[block::INSIDE_SYSCALL] = runs[context::INSIDE_SYSCALL];
    words[block::BEING_SIGKILLED] = runs[context::BEING_SIGKILLED];
    words[block::TOTAL_WEIGHT] = total;
    words[block::QUEUE_COUNT..].copy_from_slice(&counts);
    words
}
