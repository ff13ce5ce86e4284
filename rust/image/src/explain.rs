//! Why a call is refused: the number, the word by name, its value, and what is allowed.

mod calls;
mod ranges;
mod room;
mod structure;

pub use room::no_room;

use crate::call::Call;
use crate::names::Names;
use crate::place::Place;
use crate::tables::{CONTEXTS, CPUS, NUMBER_MAX, SIZES};
use crate::value;
use crate::view::{View, length};
use alloc::format;
use alloc::string::{String, ToString};
use core::fmt;

/// Why a call is refused.
#[derive(Clone, Debug, PartialEq, Eq)]
#[non_exhaustive]
pub struct Explanation {
    /// The number, 1 to 9.
    pub refusal: u64,
    /// The word that is wrong, where it is one of the image.
    pub word: Option<usize>,
    /// The other word that it clashes with.
    pub other: Option<usize>,
    /// What is wrong.
    pub wrong: String,
    /// What is allowed.
    pub allowed: String,
}

impl Explanation {
    fn new(refusal: u64, word: Option<usize>, wrong: String, allowed: impl Into<String>) -> Self {
        Self {
            refusal,
            word,
            other: None,
            wrong,
            allowed: allowed.into(),
        }
    }
    fn with(self, other: usize) -> Self {
        Self {
            other: Some(other),
            ..self
        }
    }
}

impl fmt::Display for Explanation {
    fn fmt(&self, f: &mut fmt::Formatter<'_>) -> fmt::Result {
        write!(f, "{}; {}", self.wrong, self.allowed)
    }
}

/// How words are called: by the contexts' names, and by the lines of the text that they come from.
#[derive(Clone, Copy, Debug)]
pub struct Labels<'a> {
    /// Names of the contexts.
    pub names: &'a Names,
    /// For each word the line that gave it, 0 for none; or nothing.
    pub lines: &'a [u32],
}

impl Labels<'_> {
    /// The line that gave a word.
    pub fn line(&self, word: usize) -> Option<u32> {
        self.lines.get(word).copied().filter(|line| *line > 0)
    }
    /// A word by its name and its number.
    pub fn label(&self, words: &[u64], index: usize) -> String {
        format!("{} (word {index})", self.place(words, index).name(self.names))
    }
    /// The same with its line, for a word that another one clashes with.
    fn label_with_line(&self, words: &[u64], index: usize) -> String {
        let name = self.place(words, index).name(self.names);
        match self.line(index) {
            Some(line) => format!("{name} (word {index}, line {line})"),
            None => format!("{name} (word {index})"),
        }
    }
    /// The value of a word, as its unit is written.
    pub fn value(&self, words: &[u64], index: usize) -> String {
        match self.place(words, index).word() {
            Some(word) => value::show(word.unit, words[index], self.names),
            None => words[index].to_string(),
        }
    }
    fn place(&self, words: &[u64], index: usize) -> Place {
        let size = |at: usize| words.get(at).copied().unwrap_or(0);
        Place::of(size(0), size(1), index)
    }
    /// `NAME (word N) is VALUE`.
    pub(crate) fn is(&self, words: &[u64], index: usize) -> String {
        format!("{} is {}", self.label(words, index), self.value(words, index))
    }
}

/// Why an image is refused whatever the call: rows 1 to 4, with the word by name.
pub fn image(words: &[u64], labels: &Labels) -> Option<Explanation> {
    at_time(words, 0, labels)
}

/// Why a call on these words is refused, by rows 1 to 8, and 9 where it can be seen without making the call:
/// operations 4 and 5, and groups. Nothing if it passes; a decision may still be refused with 9 ([`no_room`]).
pub fn call(words: &[u64], call: &Call, labels: &Labels) -> Option<Explanation> {
    at_time(words, call.time().unwrap_or(0), labels).or_else(|| {
        let view = View::new(words)?;
        calls::explain(view, call, labels).or_else(|| room::listed(view, call, labels))
    })
}

fn at_time(words: &[u64], time: u64, labels: &Labels) -> Option<Explanation> {
    sizes(words, labels).or_else(|| {
        let view = View::new(words)?;
        ranges::explain(view, labels)
            .or_else(|| late(time))
            .or_else(|| structure::explain(view, labels))
    })
}

fn late(time: u64) -> Option<Explanation> {
    let wrong = || format!("the call's time is {} ns", time);
    (time > NUMBER_MAX).then(|| Explanation::new(3, None, wrong(), "0 to 2^62 - 1 is allowed"))
}

/// Rows 1 and 2.
fn sizes(words: &[u64], labels: &Labels) -> Option<Explanation> {
    if words.len() < SIZES.len() {
        let wrong = format!("the image has {}", many(words.len(), "word"));
        return Some(Explanation::new(
            1,
            None,
            wrong,
            "the first two are the numbers of CPUs and of contexts",
        ));
    }
    for (at, most) in [(0, CPUS), (1, CONTEXTS)] {
        if !(1..=most).contains(&words[at]) {
            let allowed = format!("{} is allowed", SIZES[at].allowed);
            return Some(Explanation::new(1, Some(at), labels.is(words, at), allowed));
        }
    }
    let (cpus, contexts) = (words[0] as usize, words[1] as usize);
    let wanted = length(cpus, contexts);
    (words.len() != wanted).then(|| {
        let wrong = format!("the image has {}", many(words.len(), "word"));
        let sizes = format!("{} and {}", many(cpus, "CPU"), many(contexts, "context"));
        Explanation::new(2, None, wrong, format!("{sizes} take {wanted}"))
    })
}

pub(crate) fn many(count: usize, what: &str) -> String {
    match count {
        1 => format!("1 {what}"),
        _ => format!("{count} {what}s"),
    }
}
