//! Which word an index is, and how it is called.

use crate::names::Names;
use crate::near::nearest;
use crate::places::{block, context};
use crate::tables::{ARRAYS, CONTEXTS, CPUS, LAST, RECORD, ROOM, SINGLE, SIZES};
use crate::view::{length, record_at};
use crate::word::Word;
use alloc::format;
use alloc::string::{String, ToString};

/// A word of an image.
#[derive(Clone, Copy, Debug, PartialEq, Eq, Hash)]
#[non_exhaustive]
pub enum Place {
    /// Word 0 or 1.
    Size(usize),
    /// A word of a context's record.
    Record {
        /// The context's number.
        context: usize,
        /// The word of the record.
        word: usize,
    },
    /// A single word of a CPU's block, before the arrays or behind them.
    Block {
        /// The CPU's number.
        cpu: usize,
        /// The word of the block.
        word: usize,
    },
    /// A slot of an array.
    Slot {
        /// The CPU's number.
        cpu: usize,
        /// Which of [`ARRAYS`].
        array: usize,
        /// The slot.
        slot: usize,
    },
    /// No word of an image of these sizes.
    Beyond(usize),
}

impl Place {
    /// The word at this index, in an image that says that it has these sizes.
    pub fn of(cpus: u64, contexts: u64, index: usize) -> Self {
        if index < SIZES.len() {
            return Self::Size(index);
        }
        let sized = (1..=CPUS).contains(&cpus) && (1..=CONTEXTS).contains(&contexts);
        if !sized || index >= length(cpus as usize, contexts as usize) {
            return Self::Beyond(index);
        }
        let records = record_at(contexts as usize);
        if index < records {
            let place = index - SIZES.len();
            let (context, word) = (place / context::WORDS, place % context::WORDS);
            return Self::Record { context, word };
        }
        let (cpu, word) = ((index - records) / block::WORDS, (index - records) % block::WORDS);
        let room = ROOM as usize;
        if (block::SINGLE..block::LAST).contains(&word) {
            let (array, slot) = ((word - block::SINGLE) / room, (word - block::SINGLE) % room);
            return Self::Slot { cpu, array, slot };
        }
        Self::Block { cpu, word }
    }

    /// Where it stands in an image of so many contexts.
    pub fn index(self, contexts: usize) -> usize {
        let block_at = |cpu: usize| record_at(contexts) + block::WORDS * cpu;
        match self {
            Self::Size(index) | Self::Beyond(index) => index,
            Self::Record { context, word } => record_at(context) + word,
            Self::Block { cpu, word } => block_at(cpu) + word,
            Self::Slot { cpu, array, slot } => block_at(cpu) + ARRAYS[array].place + slot,
        }
    }

    /// What the tables say of it.
    pub fn word(self) -> Option<&'static Word> {
        match self {
            Self::Size(index) => SIZES.get(index),
            Self::Record { word, .. } => RECORD.get(word),
            Self::Block { word, .. } if word >= block::LAST => LAST.get(word - block::LAST),
            Self::Block { word, .. } => SINGLE.get(word),
            Self::Slot { array, .. } => ARRAYS.get(array).map(|array| &array.word),
            Self::Beyond(_) => None,
        }
    }

    /// Its name: `context.writer.lock`, `cpu.0.queue[3].key.vd`, `word[17]`.
    pub fn name(self, names: &Names) -> String {
        match self {
            Self::Size(0) => "cpus".to_string(),
            Self::Size(_) => "contexts".to_string(),
            Self::Record { context, word } => {
                format!("context.{}.{}", names.of(context as u64), RECORD[word].name)
            }
            Self::Block { cpu, word } => match self.word() {
                Some(row) => format!("cpu.{cpu}.{}", row.name),
                None => format!("word[{word}]"),
            },
            Self::Slot { cpu, array, slot } => {
                let (list, field) = block::COLUMN_NAMES[array];
                format!("cpu.{cpu}.{list}[{slot}]{field}")
            }
            Self::Beyond(index) => format!("word[{index}]"),
        }
    }

    /// The word of this name, in an image of these sizes; or what is wrong and what is allowed.
    pub fn parse(text: &str, cpus: usize, contexts: usize, names: &Names) -> Result<Self, String> {
        if let Some(inside) = text.strip_prefix("word[").and_then(|t| t.strip_suffix(']')) {
            let index = inside.parse::<usize>();
            return index
                .map(|index| Self::of(cpus as u64, contexts as u64, index))
                .map_err(|_| format!("\"{inside}\" is no number of a word; 0 and up are"));
        }
        match text {
            "cpus" => return Ok(Self::Size(0)),
            "contexts" => return Ok(Self::Size(1)),
            _ => {}
        }
        let mut parts = text.splitn(3, '.');
        match (parts.next(), parts.next(), parts.next()) {
            (Some("context"), Some(name), Some(word)) => {
                let context = names.find(name, contexts)?;
                let word = record_word(word)?;
                Ok(Self::Record { context, word })
            }
            (Some("cpu"), Some(number), Some(word)) => {
                let cpu = number.parse::<usize>().ok().filter(|cpu| *cpu < cpus);
                let cpu = cpu.ok_or_else(|| no_cpu(number, cpus))?;
                block_word(cpu, word)
            }
            _ => Err(format!(
                "\"{text}\" names no word; context.NAME.WORD, cpu.K.WORD, cpu.K.LIST[I].FIELD and word[I] do"
            )),
        }
    }
}

pub(crate) fn no_cpu(number: &str, cpus: usize) -> String {
    match cpus {
        0 => format!("there is no CPU {number}; the image has none"),
        1 => format!("there is no CPU {number}; 0 is the only one"),
        _ => format!("there is no CPU {number}; 0 to {} are there", cpus - 1),
    }
}

/// The word of a record that has this name.
pub(crate) fn record_word(name: &str) -> Result<usize, String> {
    let at = context::NAMES.iter().position(|other| *other == name);
    at.ok_or_else(|| format!("a context has no word \"{name}\"; {}", nearest(name, &context::NAMES)))
}

/// The single word of a block that has this name.
pub(crate) fn single_word(name: &str) -> Result<usize, String> {
    let single = block::NAMES.iter().position(|other| *other == name);
    let last = block::LAST_NAMES.iter().position(|other| *other == name);
    single
        .or(last.map(|at| block::LAST + at))
        .ok_or_else(|| format!("a CPU has no word \"{name}\"; {}", nearest(name, &block::NAMES)))
}

fn block_word(cpu: usize, name: &str) -> Result<Place, String> {
    let Some((list, rest)) = name.split_once('[') else {
        return single_word(name).map(|word| Place::Block { cpu, word });
    };
    let (slot, field) = rest
        .split_once(']')
        .ok_or_else(|| format!("\"{name}\" has no \"]\" behind its slot; LIST[I].FIELD has one"))?;
    let slot = slot
        .parse::<usize>()
        .ok()
        .filter(|slot| *slot < ROOM as usize)
        .ok_or_else(|| format!("\"{slot}\" is no slot; 0 to {} are", ROOM - 1))?;
    let known = block::COLUMN_NAMES.iter().position(|column| *column == (list, field));
    let array = known.ok_or_else(|| {
        format!(
            "a CPU has no word \"{list}[{slot}]{field}\"; queue[I].key.vd, .key.rem_slice, .key.ctxt_id, .vtime, \
             .weight and .context_ref, timers[I].wake and .context_ref, local_wakeup_list[I] and \
             ipi_context_wakeup_list[I] are there"
        )
    })?;
    Ok(Place::Slot { cpu, array, slot })
}
