//! An image whose sizes and length agree.

use crate::places::{block, context};
use crate::tables::{CONTEXTS, CPUS, SIZES};

/// How many words an image of these sizes has.
pub const fn length(cpus: usize, contexts: usize) -> usize {
    record_at(contexts) + block::WORDS * cpus
}

/// Where the record of a context begins.
pub const fn record_at(number: usize) -> usize {
    SIZES.len() + context::WORDS * number
}

/// Words that are an image of the sizes that they name: 1 to 4 CPUs, 1 to 64 contexts, and as many words as these
/// need. Of their values nothing is known.
#[derive(Clone, Copy, Debug)]
pub struct View<'a> {
    words: &'a [u64],
    cpus: usize,
    contexts: usize,
}

impl<'a> View<'a> {
    /// The words as an image, if sizes and length agree.
    pub fn new(words: &'a [u64]) -> Option<Self> {
        let &[cpus, contexts, ..] = words else {
            return None;
        };
        let sized = (1..=CPUS).contains(&cpus) && (1..=CONTEXTS).contains(&contexts);
        let (cpus, contexts) = (cpus as usize, contexts as usize);
        (sized && words.len() == length(cpus, contexts)).then_some(Self { words, cpus, contexts })
    }
    /// All words.
    pub fn words(self) -> &'a [u64] {
        self.words
    }
    /// The number of CPUs, absent ones too.
    pub fn cpus(self) -> usize {
        self.cpus
    }
    /// The number of contexts, gone ones too.
    pub fn contexts(self) -> usize {
        self.contexts
    }
    /// Where the block of a CPU begins.
    pub fn block_at(self, cpu: usize) -> usize {
        record_at(self.contexts) + block::WORDS * cpu
    }
    /// A word of a context's record.
    pub fn record(self, number: usize, word: usize) -> u64 {
        self.words[record_at(number) + word]
    }
    /// A word of a CPU's block.
    pub fn block(self, cpu: usize, word: usize) -> u64 {
        self.words[self.block_at(cpu) + word]
    }
    /// Whether a CPU's block says that it is there.
    pub fn present(self, cpu: usize) -> bool {
        self.block(cpu, block::PRESENT) == 1
    }
    /// The CPUs that are there.
    pub fn present_cpus(self) -> impl Iterator<Item = usize> + 'a {
        (0..self.cpus).filter(move |cpu| self.present(*cpu))
    }
    /// Whether nobody holds the context any more.
    pub fn gone(self, number: usize) -> bool {
        self.record(number, context::GONE) == 1
    }
    /// How many slots are in use, by a count word that may be too large.
    pub fn used(self, cpu: usize, count: usize) -> usize {
        self.block(cpu, count).min(crate::tables::ROOM) as usize
    }
    /// Whose entries stand in a CPU's queue, in their order.
    pub fn queue(self, cpu: usize) -> impl Iterator<Item = u64> + 'a {
        (0..self.used(cpu, block::QUEUE_COUNT)).map(move |slot| self.block(cpu, block::ENTRY_CONTEXT_REF + slot))
    }
    /// The timers of a CPU, wake and context, in their order.
    pub fn timers(self, cpu: usize) -> impl Iterator<Item = (u64, u64)> + 'a {
        (0..self.used(cpu, block::TIMERS_COUNT)).map(move |slot| {
            let wake = self.block(cpu, block::TIMER_WAKE + slot);
            (wake, self.block(cpu, block::TIMER_CONTEXT_REF + slot))
        })
    }
}
