//! The text form of an image: contexts by name, what is default left out, what follows from the rest derived, and any
//! word overridden. docs/TEXT.md describes it.

mod bare;
mod builder;
mod derive;
mod describe;
mod lines;
mod read;
mod records;
mod written;

pub use builder::Builder;
pub use describe::{describe, show};
pub use read::{Packed, first, pack, without_comment};

use crate::names::Names;
use crate::places::{block, context};
use crate::word::Unit;
use alloc::string::String;
use alloc::vec::Vec;

/// Something that a text says wrongly: its line, what is wrong and what is allowed.
#[derive(Clone, Debug, PartialEq, Eq)]
#[non_exhaustive]
pub struct Problem {
    /// The line, from 1.
    pub line: u32,
    /// What is wrong; what is allowed.
    pub says: String,
}

/// A word that was told, and by which line.
type Told = Option<(u64, u32)>;

/// A context as it is written.
#[derive(Clone, Debug)]
struct Context {
    line: u32,
    told: [Told; context::WORDS],
}

/// A CPU as it is written: the single words, then those behind the arrays.
#[derive(Clone, Debug)]
struct Cpu {
    line: u32,
    told: Vec<Told>,
}

/// Which words of an entry can be told, by the names that they have in the text.
const ENTRY_WORDS: [(&str, usize, Unit); 5] = [
    ("vd", block::KEY_VD, Unit::VirtualTime),
    ("rem_slice", block::KEY_REM_SLICE, Unit::ScaledTicks),
    ("id", block::KEY_CTXT_ID, Unit::Id),
    ("vtime", block::ENTRY_VTIME, Unit::VirtualTime),
    ("weight", block::ENTRY_WEIGHT, Unit::Weight),
];

/// An entry of a queue as it is written.
#[derive(Clone, Debug)]
struct Entry {
    line: u32,
    cpu: usize,
    context: u64,
    told: [Told; ENTRY_WORDS.len()],
}

/// A timer as it is written.
#[derive(Clone, Debug)]
struct Timer {
    line: u32,
    cpu: usize,
    context: u64,
    wake: Option<u64>,
}

/// A name on a list as it is written.
#[derive(Clone, Debug)]
struct Listed {
    line: u32,
    cpu: usize,
    interrupt: bool,
    context: u64,
}

/// An image as it is written, before anything is derived.
#[derive(Clone, Debug, Default)]
struct Source {
    names: Names,
    contexts: Vec<Context>,
    cpus: Vec<Option<Cpu>>,
    queue: Vec<Entry>,
    timers: Vec<Timer>,
    lists: Vec<Listed>,
    /// The length of an image that is given by its words alone.
    raw: Option<usize>,
}

impl Cpu {
    fn new(line: u32) -> Self {
        let words = block::SINGLE + block::LAST_NAMES.len();
        Self {
            line,
            told: alloc::vec![None; words],
        }
    }
    /// Where a word of the block is kept.
    fn place(word: usize) -> usize {
        match word {
            block::LAST.. => word - block::LAST + block::SINGLE,
            _ => word,
        }
    }
    fn get(&self, word: usize) -> Told {
        self.told[Self::place(word)]
    }
}
