//! The machine image of document 01: places of its words, their names, and an own
//! reading of the table of refused calls, of decisions, of their rules, of weights and of carried
//! remainders. And the cue board of document 02.

pub mod apart;
pub mod asked;
pub mod board;
pub mod check;
pub mod decision;
pub mod humblest;
pub mod name;
pub mod newest;
pub mod plain;
pub mod ranges;
pub mod remainder;
pub mod rival;
pub mod rule;
pub mod run;
pub mod served;
pub mod structure;
pub mod tidy;
pub mod total_weight;
pub mod window;

pub use ronthuyal_image::{RULES, block, context};

pub const MAX_CPUS: u64 = 4;
pub const MAX_CONTEXTS: u64 = 64;
/// Room in a queue, timer set or list.
pub const ROOM: usize = 64;
/// 64-bit numbers go up to this, unless said otherwise.
pub const NUMBER_MAX: u64 = (1 << 62) - 1;
/// The whole slice of a context, in scaled ticks.
pub const SLICE_MAX: u64 = 9 << 30;
/// The most that a CPU carries of a tick.
pub const REMAINDER_MAX: u64 = 2_249_999;

#[derive(Clone, Copy, Debug, PartialEq, Eq, Default)]
pub struct Call {
    pub operation: u64,
    pub cpu: u64,
    pub time: u64,
    pub context: u64,
}

/// Wakes the contexts whose bits are set in the mask.
#[derive(Clone, Copy, Debug, PartialEq, Eq, Default)]
pub struct Group {
    pub cpu: u64,
    pub time: u64,
    pub mask: u64,
}

impl Group {
    /// The single calls that it stands for, by rising number of the context.
    pub fn singles(self) -> impl Iterator<Item = Call> {
        let named = (0..64).filter(move |context| self.mask >> context & 1 == 1);
        named.map(move |context| Call {
            operation: 4,
            cpu: self.cpu,
            time: self.time,
            context,
        })
    }
}

/// Asks for the weight of a CPU, added up from the contexts.
#[derive(Clone, Copy, Debug, PartialEq, Eq, Default)]
pub struct TotalWeight {
    pub cpu: u64,
}

#[repr(C)]
#[derive(Clone, Copy, Debug, PartialEq, Eq, Default)]
pub struct Answer {
    pub refusal: u64,
    pub result: u64,
    pub interrupt: u64,
    /// The number of the rule that decided, 0 where nothing was decided.
    pub rule: u64,
}

impl Answer {
    pub fn refused(refusal: u64) -> Self {
        Self {
            refusal,
            ..Self::default()
        }
    }
}

/// Of a call to which the kernel has no answer.
#[derive(Debug, PartialEq, Eq)]
pub enum Fault {
    /// The kernel would wait for a lock.
    Waits,
    /// The kernel asserts, or its arithmetic overflows.
    Panics(String),
}

pub const OPERATIONS: [&str; 7] = [
    "tick",
    "switch",
    "direct_switch_to",
    "unblock_context",
    "drain_ipi_context_wakeups",
    "block",
    "hard_block",
];

pub fn length(cpus: usize, contexts: usize) -> usize {
    record(contexts) + block::WORDS * cpus
}

/// Where the record of a context begins.
pub const fn record(number: usize) -> usize {
    2 + context::WORDS * number
}

/// An image whose sizes and length agree.
#[derive(Clone, Copy)]
pub struct View<'a>(pub &'a [u64]);

impl View<'_> {
    pub fn cpus(self) -> usize {
        self.0[0] as usize
    }
    pub fn contexts(self) -> usize {
        self.0[1] as usize
    }
    pub fn context(self, number: usize, word: usize) -> u64 {
        self.0[self.context_at(number) + word]
    }
    pub fn block(self, cpu: usize, word: usize) -> u64 {
        self.0[self.block_at(cpu) + word]
    }
    pub fn context_at(self, number: usize) -> usize {
        record(number)
    }
    pub fn block_at(self, cpu: usize) -> usize {
        record(self.contexts()) + block::WORDS * cpu
    }
    pub fn present(self, cpu: usize) -> bool {
        self.block(cpu, block::PRESENT) == 1
    }
    pub fn gone(self, number: usize) -> bool {
        self.context(number, context::GONE) == 1
    }
}

impl<'a> View<'a> {
    /// The timers of a CPU, wake and context, in their order.
    pub fn timers(self, cpu: usize) -> impl Iterator<Item = (u64, u64)> + 'a {
        let at = move |word| self.block(cpu, word);
        (0..at(block::TIMERS_COUNT) as usize).map(move |slot| {
            let context = at(block::TIMER_CONTEXT_REF + slot);
            (at(block::TIMER_WAKE + slot), context)
        })
    }
}

/// Writes the timers of the block that begins there anew.
pub fn put_timers(image: &mut [u64], block: usize, timers: &[(u64, u64)]) {
    image[block + block::TIMERS_COUNT] = timers.len() as u64;
    for slot in 0..ROOM {
        let (wake, context) = timers.get(slot).copied().unwrap_or_default();
        image[block + block::TIMER_WAKE + slot] = wake;
        image[block + block::TIMER_CONTEXT_REF + slot] = context;
    }
}
