//! The records that are written: what follows from lists, CPUs and each other.

use super::derive::weight;
use super::{Cpu, ENTRY_WORDS, Entry, Source};
use crate::places::{block, context};
use crate::tables::{ID_MAX, RECORD, SLICE_MAX};
use alloc::vec::Vec;

pub type Record = [u64; context::WORDS];
pub type EntryWords = [u64; ENTRY_WORDS.len()];
/// Of a context that there is not.
pub const NOBODY: Record = [0; context::WORDS];

/// A seat of a CPU: as told, or as the others are.
pub fn seat(cpu: &Cpu, word: usize) -> u64 {
    let told = |word| cpu.get(word).map(|(value, _)| value);
    let idle = told(block::IDLE_CTXT);
    let sched = told(block::SCHED_CTXT);
    let current = told(block::CURRENT_CTXT);
    let found = match word {
        block::CURRENT_CTXT => current.or(sched).or(idle),
        block::SCHED_CTXT => sched.or(current).or(idle),
        _ => idle,
    };
    found.unwrap_or(0)
}

fn present(cpu: &Cpu) -> bool {
    cpu.get(block::PRESENT).is_none_or(|(value, _)| value == 1)
}

/// On which CPU that is there the context has this seat.
fn seated(source: &Source, word: usize, number: usize) -> Option<usize> {
    let cpus = source.cpus.iter().enumerate();
    cpus.filter_map(|(at, cpu)| Some((at, cpu.as_ref()?)))
        .find(|(_, cpu)| present(cpu) && seat(cpu, word) == number as u64)
        .map(|(at, _)| at)
}

pub fn records(source: &Source) -> Vec<Record> {
    let ids = ids(source);
    let numbers = 0..source.contexts.len();
    numbers.map(|number| record(source, number, ids[number])).collect()
}

/// Ids that are told stay; the others are the smallest that nobody has.
fn ids(source: &Source) -> Vec<u64> {
    let told = |number: usize| source.contexts[number].told[context::DEBUG_ID].map(|(id, _)| id);
    let taken: Vec<u64> = (0..source.contexts.len()).filter_map(told).collect();
    let mut free = (0..=ID_MAX).filter(|id| !taken.contains(id));
    (0..source.contexts.len())
        .map(|number| told(number).unwrap_or_else(|| free.next().unwrap_or(0)))
        .collect()
}

fn record(source: &Source, number: usize, id: u64) -> Record {
    let told = |word: usize| source.contexts[number].told[word].map(|(value, _)| value);
    let tell = |record: &mut Record| {
        for (word, value) in record.iter_mut().enumerate() {
            *value = told(word).unwrap_or(*value);
        }
    };
    let mut record = NOBODY;
    let gone = told(context::GONE) == Some(1);
    if !gone {
        for (value, row) in record.iter_mut().zip(&RECORD) {
            *value = row.default;
        }
        record[context::STATUS] = context::RUNNABLE;
        marks(source, number, &mut record);
    }
    record[context::DEBUG_ID] = id;
    // What follows goes by what is told, and does not change it.
    tell(&mut record);
    if !gone {
        times(source, number, &mut record);
        tell(&mut record);
    }
    record
}

fn marks(source: &Source, number: usize, record: &mut Record) {
    let current = seated(source, block::CURRENT_CTXT, number);
    let charged = seated(source, block::SCHED_CTXT, number);
    let idle = seated(source, block::IDLE_CTXT, number).is_some();
    let queued = source.queue.iter().any(|entry| entry.context == number as u64);
    record[context::RUNNING] = u64::from(current.is_some());
    record[context::CURRENTLY_SCHEDULED] = u64::from(charged.is_some());
    record[context::CPU_ID] = current.or(charged).map_or(0, |cpu| cpu as u64 + 1);
    record[context::USERSPACE] = u64::from(!idle);
    record[context::IS_ACTIVE] = u64::from(queued || charged.is_some() && !idle);
    record[context::HAS_QUEUE_KEY] = u64::from(queued);
    let wakes = source.contexts[number].told[context::WAKE].is_some();
    record[context::HAS_WAKE] = u64::from(wakes);
    if wakes {
        record[context::STATUS] = context::BLOCKED;
    }
}

/// Slice and deadline of who is active, and the key of who is queued.
fn times(source: &Source, number: usize, record: &mut Record) {
    let told = |word: usize| source.contexts[number].told[word].is_some();
    if record[context::IS_ACTIVE] == 1 {
        if !told(context::REM_SLICE) {
            record[context::REM_SLICE] = SLICE_MAX;
        }
        if !told(context::VD) {
            let slice = SLICE_MAX.checked_div(weight(record[context::PRIO]));
            record[context::VD] = record[context::VTIME].saturating_add(slice.unwrap_or(0));
        }
    }
    let mut queue = source.queue.iter();
    let entry = queue.find(|entry| entry.context == number as u64);
    if let (Some(entry), 1) = (entry, record[context::HAS_QUEUE_KEY]) {
        let words = entry_words(entry, record);
        record[context::QUEUE_KEY_VD] = words[0];
        record[context::QUEUE_KEY_REM_SLICE] = words[1];
    }
}

/// The words of an entry, in the order of [`ENTRY_WORDS`].
pub fn entry_words(entry: &Entry, record: &Record) -> EntryWords {
    let own = [
        record[context::VD],
        record[context::REM_SLICE],
        record[context::DEBUG_ID],
        record[context::VTIME],
        weight(record[context::PRIO]),
    ];
    core::array::from_fn(|at| entry.told[at].map_or(own[at], |(value, _)| value))
}
