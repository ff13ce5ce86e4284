//! Reading the text form, line by line.

use super::Problem;
use super::builder::Builder;
use crate::names::Names;
use crate::place::Place;
use crate::value;
use crate::word::Unit;
use alloc::format;
use alloc::string::String;
use alloc::vec::Vec;

/// Words that a text gave, the names of its contexts, and for each word the line that it comes from.
#[derive(Clone, Debug, PartialEq, Eq)]
#[non_exhaustive]
pub struct Packed {
    /// The image.
    pub words: Vec<u64>,
    /// The contexts' names.
    pub names: Names,
    /// A line for each word, 0 for none.
    pub lines: Vec<u32>,
}

/// The words of this text, or everything that is wrong with it, by lines.
pub fn pack(text: &str) -> Result<Packed, Vec<Problem>> {
    let mut builder = Builder::default();
    let (mut problems, mut sets) = (Vec::new(), Vec::new());
    for (number, line) in (1..).zip(text.lines()) {
        let line = without_comment(line);
        let taken = match first(line) {
            "" => Ok(()),
            "set" => {
                sets.push((number, line));
                Ok(())
            }
            late if !sets.is_empty() => Err(format!(
                "\"{late}\" behind a line that begins with set; what describes the image stands before"
            )),
            _ => builder.line(number, line),
        };
        problems.extend(taken.err().map(|says| Problem { line: number, says }));
    }
    let finished = builder.finish().map(|mut packed| {
        for (number, line) in sets {
            let set = packed.set(number, line);
            problems.extend(set.err().map(|says| Problem { line: number, says }));
        }
        packed
    });
    match finished {
        Ok(packed) if problems.is_empty() => Ok(packed),
        finished => {
            problems.extend(finished.err().into_iter().flatten());
            problems.sort_by_key(|problem| problem.line);
            Err(problems)
        }
    }
}

/// A line without what stands behind `#`.
pub fn without_comment(line: &str) -> &str {
    line.split('#').next().unwrap_or("").trim()
}

/// The first word of a line.
pub fn first(line: &str) -> &str {
    line.split_whitespace().next().unwrap_or("")
}

impl Packed {
    /// Words that no text gave: invented names, and no lines.
    pub fn of_words(words: Vec<u64>) -> Self {
        Self {
            names: Names::invented(&words),
            lines: Vec::new(),
            words,
        }
    }

    /// Words with names of their own, and no lines.
    pub fn of(words: Vec<u64>, names: Names) -> Self {
        Self {
            words,
            names,
            lines: Vec::new(),
        }
    }

    /// A line `set PLACE = VALUE`.
    pub fn set(&mut self, number: u32, line: &str) -> Result<(), String> {
        let rest = line.trim().strip_prefix("set").unwrap_or(line);
        let (place, text) = rest.split_once('=').ok_or("no = behind the place; set PLACE = VALUE")?;
        let (place, value) = self.assigned(place.trim(), text.trim())?;
        self.words[place] = value;
        if let Some(line) = self.lines.get_mut(place) {
            *line = number;
        }
        Ok(())
    }

    /// The index of a word by its name, and a value for it; or what is wrong and what is allowed.
    pub fn assigned(&self, place: &str, text: &str) -> Result<(usize, u64), String> {
        let (index, unit) = self.place(place)?;
        let value = value::parse(unit, text, &self.names).map_err(|says| format!("{place}: {says}"))?;
        Ok((index, value))
    }

    /// The index of a word by its name, and its unit.
    pub fn place(&self, place: &str) -> Result<(usize, Unit), String> {
        let (cpus, contexts) = match crate::view::View::new(&self.words) {
            Some(view) => (view.cpus(), view.contexts()),
            None => (0, 0),
        };
        let found = Place::parse(place, cpus, contexts, &self.names)?;
        let index = found.index(contexts);
        if index >= self.words.len() {
            return Err(format!(
                "there is no word {index}; the image has {}, from 0",
                crate::explain::many(self.words.len(), "word")
            ));
        }
        Ok((index, found.word().map_or(Unit::Items, |word| word.unit)))
    }
}
