//! Running states: all of them, a part, or some at random.

use super::dimension::Space;
use super::moment::Moment;
use super::outcome::{Maker, Outcome};
use crate::progress::Progress;
use rayon::prelude::*;
use std::collections::HashMap;
use std::ops::Range;
use std::sync::atomic::{AtomicU64, Ordering};

/// So many states are run at a time by one thread.
const CHUNK: u64 = 2048;

/// What states come to: each outcome once, and for each state which.
#[derive(Clone, Debug, Default, PartialEq, Eq)]
pub struct Ran {
    pub outcomes: Vec<Outcome>,
    pub cells: Vec<u32>,
}

/// Outcomes by their number.
#[derive(Default)]
struct Known {
    outcomes: Vec<Outcome>,
    numbers: HashMap<Outcome, u32>,
}

impl Known {
    fn number(&mut self, outcome: &Outcome) -> u32 {
        if let Some(number) = self.numbers.get(outcome) {
            return *number;
        }
        let number = self.outcomes.len() as u32;
        self.outcomes.push(outcome.clone());
        self.numbers.insert(outcome.clone(), number);
        number
    }
}

/// Runs these states, on all cores. Outcomes are numbered in the order in which the states meet them.
pub fn run(moment: &Moment, space: &Space, states: Range<u64>) -> Ran {
    let count = states.end - states.start;
    chunks(count, |part| {
        let mut numbers = part.map(|at| states.start + at);
        each(moment, space, |words| {
            numbers.next().map(|state| space.store(state, words))
        })
    })
}

/// So many states at random, the same for the same seed on any number of cores; a state may come twice.
pub fn sample(moment: &Moment, space: &Space, count: u64, seed: u64) -> Ran {
    chunks(count, |part| {
        let mut random = Random(seed.wrapping_add(part.start.wrapping_mul(0x9e37_79b9_7f4a_7c15)));
        let mut numbers = part;
        each(moment, space, |words| {
            numbers.next()?;
            // Each word's value by itself, since there may be more states than a number can say.
            for dimension in &space.dimensions {
                words[dimension.word] = dimension.values[random.below(dimension.values.len())];
            }
            Some(())
        })
    })
}

/// Parts of so many, each by one thread.
fn chunks(count: u64, part: impl Fn(Range<u64>) -> Ran + Sync) -> Ran {
    let progress = Progress::states(count);
    let done = AtomicU64::new(0);
    let ran = (0..count.div_ceil(CHUNK)).into_par_iter().map(|chunk| {
        let (from, to) = (chunk * CHUNK, count.min((chunk + 1) * CHUNK));
        let ran = part(from..to);
        progress.tell(done.fetch_add(to - from, Ordering::Relaxed) + to - from);
        ran
    });
    joined(ran.collect::<Vec<_>>())
}

/// Makes the calls as long as another state is stored.
fn each(moment: &Moment, space: &Space, mut store: impl FnMut(&mut [u64]) -> Option<()>) -> Ran {
    let mut known = Known::default();
    let mut maker = Maker::new(moment, space);
    let mut words = moment.words.clone();
    let mut cells = Vec::new();
    while store(&mut words).is_some() {
        maker.make(moment, &mut words);
        cells.push(known.number(&maker.outcome));
        words.copy_from_slice(&moment.words);
    }
    Ran {
        cells,
        outcomes: known.outcomes,
    }
}

/// splitmix64.
struct Random(u64);

impl Random {
    fn below(&mut self, bound: usize) -> usize {
        self.0 = self.0.wrapping_add(0x9e37_79b9_7f4a_7c15);
        let mixed = (self.0 ^ (self.0 >> 30)).wrapping_mul(0xbf58_476d_1ce4_e5b9);
        let mixed = (mixed ^ (mixed >> 27)).wrapping_mul(0x94d0_49bb_1331_11eb);
        ((mixed ^ (mixed >> 31)) % bound as u64) as usize
    }
}

/// Parts, one behind the other: as if they had been run as one.
pub fn joined(parts: impl IntoIterator<Item = Ran>) -> Ran {
    let mut known = Known::default();
    let mut cells = Vec::new();
    for part in parts {
        let numbers: Vec<u32> = part.outcomes.iter().map(|outcome| known.number(outcome)).collect();
        cells.extend(part.cells.iter().map(|cell| numbers[*cell as usize]));
    }
    Ran {
        cells,
        outcomes: known.outcomes,
    }
}
