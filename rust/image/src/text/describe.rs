//! From words to text: what the derivation gives is left out, and what it cannot say is set word by word.

use super::bare::bare;
use super::derive::derive;
use super::records::entry_words;
use super::written::write;
use super::{Cpu, ENTRY_WORDS, Source};
use crate::names::Names;
use crate::place::Place;
use crate::places::{block, context};
use crate::value;
use crate::view::{View, record_at};
use crate::word::Unit;
use alloc::format;
use alloc::string::String;
use alloc::vec;
use alloc::vec::Vec;

/// Any words as text, with invented names. [`pack`](super::pack) gives the same words back.
pub fn show(words: &[u64]) -> String {
    describe(words, &Names::invented(words))
}

/// Any words as text, with these names for the contexts.
pub fn describe(words: &[u64], names: &Names) -> String {
    let mut out = String::new();
    match View::new(words) {
        Some(view) => {
            let source = source(view, names);
            write(&source, &mut out);
            sets(words, &derive(&source).words, names, &mut out);
        }
        None => {
            let refused = crate::explain::image(words, &labels(names));
            if let Some(why) = refused {
                out += &format!("# refused with {}: {why}\n", why.refusal);
            }
            out += &format!("words {}\n", words.len());
            sets(words, &vec![0; words.len()], names, &mut out);
        }
    }
    out
}

fn labels(names: &Names) -> crate::explain::Labels<'_> {
    crate::explain::Labels { names, lines: &[] }
}

/// A line for each word that is not yet what it should be.
fn sets(words: &[u64], derived: &[u64], names: &Names, out: &mut String) {
    let mut first = true;
    for (index, (word, given)) in words.iter().zip(derived).enumerate() {
        if word == given {
            continue;
        }
        if core::mem::take(&mut first) {
            out.push('\n');
        }
        let (cpus, contexts) = (words[0], words.get(1).copied().unwrap_or(0));
        // Sizes that are wrong name nothing.
        let place = match View::new(words) {
            Some(_) => Place::of(cpus, contexts, index),
            None => Place::Beyond(index),
        };
        let unit = place.word().map_or(Unit::Items, |row| row.unit);
        *out += &format!("set {} = {}\n", place.name(names), value::show(unit, *word, names));
    }
}

/// Words of a record that others follow from, in the order in which they are told.
const FIRST: [usize; 12] = [
    context::GONE,
    context::DEBUG_ID,
    context::WAKE,
    context::HAS_WAKE,
    context::STATUS,
    context::PRIO,
    context::USERSPACE,
    context::IS_ACTIVE,
    context::HAS_QUEUE_KEY,
    context::VTIME,
    context::REM_SLICE,
    context::VD,
];

/// What is written, with as few words as will do: after each step, only what still differs is told.
fn source(view: View, names: &Names) -> Source {
    let mut source = bare(view, names);
    for word in FIRST {
        tell_records(&mut source, view, &[word]);
    }
    for entry in 0..source.queue.len() {
        tell_entry(&mut source, view, entry);
    }
    let rest: Vec<usize> = (0..context::WORDS).collect();
    tell_records(&mut source, view, &rest);
    tell_blocks(&mut source, view, &[block::TOTAL_WEIGHT]);
    let words: Vec<usize> = (0..block::SINGLE).chain(block::LAST..block::WORDS).collect();
    tell_blocks(&mut source, view, &words);
    source
}

fn tell_records(source: &mut Source, view: View, words: &[usize]) {
    let derived = derive(source).words;
    for (number, context) in source.contexts.iter_mut().enumerate() {
        for word in words {
            let index = record_at(number) + word;
            let actual = view.words()[index];
            if derived[index] != actual {
                context.told[*word] = Some((actual, 0));
            }
        }
    }
}

fn tell_blocks(source: &mut Source, view: View, words: &[usize]) {
    let derived = derive(source).words;
    for (cpu, written) in source.cpus.iter_mut().enumerate() {
        let Some(written) = written else { continue };
        for word in words {
            let index = view.block_at(cpu) + word;
            let actual = view.words()[index];
            if derived[index] != actual {
                written.told[Cpu::place(*word)] = Some((actual, 0));
            }
        }
    }
}

/// An entry's words are those of its context, unless told.
fn tell_entry(source: &mut Source, view: View, entry: usize) {
    let Some((cpu, slot)) = slot_of(view, source, entry) else {
        return;
    };
    let number = source.queue[entry].context;
    if number >= view.contexts() as u64 {
        return;
    }
    let record = core::array::from_fn(|word| view.record(number as usize, word));
    let own = entry_words(&source.queue[entry], &record);
    for (nth, (_, column, _)) in ENTRY_WORDS.iter().enumerate() {
        let actual = view.block(cpu, column + slot);
        if actual != own[nth] {
            source.queue[entry].told[nth] = Some((actual, 0));
        }
    }
}

/// Which slot of the image an entry was taken from.
fn slot_of(view: View, source: &Source, entry: usize) -> Option<(usize, usize)> {
    let cpu = source.queue[entry].cpu;
    let before = source.queue[..entry].iter();
    let slot = before.filter(|other| other.cpu == cpu).count();
    (slot < view.used(cpu, block::QUEUE_COUNT)).then_some((cpu, slot))
}
