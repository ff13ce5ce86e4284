//! Takes lines that describe an image.

use super::derive::derive;
use super::lines::{once, split, told};
use super::read::{Packed, first, without_comment};
use super::{Context, Cpu, Problem, Source};
use crate::names::Names;
use crate::near::nearest;
use crate::place::record_word;
use crate::places::{block, context};
use crate::tables::{CONTEXTS, CPUS, RECORD};
use crate::value;
use alloc::format;
use alloc::string::{String, ToString};
use alloc::vec::Vec;

/// The longest image that is taken by its words alone.
const RAW_MOST: usize = 1 << 20;

/// What a line may begin with; the last three are a trace's.
const LINES: [&str; 12] = [
    "cpus", "context", "cpu", "queue", "timer", "local", "ipi", "words", "set", "call", "expect", "image",
];

/// Takes lines that describe an image.
#[derive(Clone, Debug, Default)]
pub struct Builder {
    pub(super) source: Source,
    /// Lines that name contexts, which may come later: read when all names are known.
    waiting: Vec<(u32, String)>,
    /// How many there are, and the line that says so.
    cpus: Option<(usize, u32)>,
    begun: bool,
}

impl Builder {
    /// Whether any line was taken.
    pub fn begun(&self) -> bool {
        self.begun
    }

    /// Takes a line; or says what is wrong and what is allowed.
    pub fn line(&mut self, number: u32, line: &str) -> Result<(), String> {
        let line = without_comment(line);
        let words: Vec<&str> = line.split_whitespace().collect();
        let Some((head, rest)) = words.split_first() else {
            return Ok(());
        };
        self.begun = true;
        if self.source.raw.is_some() {
            return Err(format!(
                "\"{head}\" behind \"words\"; only lines that begin with set stand there"
            ));
        }
        match *head {
            "cpus" => self.cpus(number, rest),
            "context" => self.context(number, rest),
            "words" => self.raw(rest),
            // These name contexts that may come later.
            "cpu" | "queue" | "timer" | "local" | "ipi" => {
                self.waiting.push((number, line.to_string()));
                Ok(())
            }
            _ => Err(format!("a line that begins with \"{head}\"; {}", nearest(head, &LINES))),
        }
    }

    fn cpus(&mut self, number: u32, rest: &[&str]) -> Result<(), String> {
        let text = rest.join(" ");
        let count = value::number(&text).filter(|count| (1..=CPUS).contains(count));
        let count = count.ok_or_else(|| format!("\"{text}\" is no number of CPUs; 1 to {CPUS} are"))?;
        self.cpus = Some((count as usize, number));
        Ok(())
    }

    fn raw(&mut self, rest: &[&str]) -> Result<(), String> {
        if !self.source.contexts.is_empty() || !self.waiting.is_empty() || self.cpus.is_some() {
            return Err("\"words\" behind other lines; it describes an image by itself".to_string());
        }
        // A wrong number is told once.
        self.source.raw = Some(0);
        let text = rest.join(" ");
        let count = value::number(&text).filter(|count| *count <= RAW_MOST as u64);
        let count = count.ok_or_else(|| format!("\"{text}\" is no number of words; 0 to {RAW_MOST} are"))?;
        self.source.raw = Some(count as usize);
        Ok(())
    }

    fn context(&mut self, number: u32, rest: &[&str]) -> Result<(), String> {
        let Some((name, words)) = rest.split_first() else {
            return Err("a context without a name; context NAME WORD=VALUE ..".to_string());
        };
        let lettered = name.chars().all(|c| c.is_alphanumeric() || c == '_' || c == '-');
        if !lettered || name.starts_with(|c: char| c.is_ascii_digit() || c == '-') {
            return Err(format!(
                "\"{name}\" is no name; letters, digits, _ and - make one, a letter or _ first"
            ));
        }
        let mut all = self.source.names.all().to_vec();
        if all.iter().any(|other| other == name) {
            let at = all.iter().position(|other| other == name).unwrap_or(0);
            let line = self.source.contexts[at].line;
            return Err(format!("a second context \"{name}\"; the first is in line {line}"));
        }
        if all.len() as u64 == CONTEXTS {
            return Err(format!("one context more than an image takes; it takes {CONTEXTS}"));
        }
        all.push(name.to_string());
        self.source.names = Names::new(all);
        let mut context = Context {
            line: number,
            told: [None; context::WORDS],
        };
        let mut result = Ok(());
        for (word, text) in words.iter().map(|word| split(word)) {
            let told = record_word(word).and_then(|at| {
                let value = told(&RECORD[at], text, &self.source.names);
                // A wrong value is told once, and not again by what follows from it.
                once(&mut context.told[at], word, *value.as_ref().unwrap_or(&0), number)?;
                value.map(|_| ())
            });
            result = result.and(told);
        }
        self.source.contexts.push(context);
        result
    }

    /// The image, when all lines are taken; or everything that is wrong with those that named contexts.
    pub fn finish(mut self) -> Result<Packed, Vec<Problem>> {
        let mut problems = Vec::new();
        for (number, line) in core::mem::take(&mut self.waiting) {
            if let Err(says) = self.named(number, &line) {
                problems.push(Problem { line: number, says });
                // What only follows from a line of a CPU that is wrong is not told.
                if first(&line) == "cpu" {
                    return Err(problems);
                }
            }
        }
        if problems.is_empty()
            && let Err(problem) = self.whole()
        {
            problems.push(problem);
        }
        if !problems.is_empty() {
            return Err(problems);
        }
        let derived = derive(&self.source);
        Ok(Packed {
            words: derived.words,
            names: self.source.names,
            lines: derived.lines,
        })
    }

    /// What only the whole text shows.
    fn whole(&mut self) -> Result<(), Problem> {
        let problem = |line: u32, says: String| Err(Problem { line, says });
        if self.source.raw.is_some() {
            return Ok(());
        }
        let (count, line) = self.cpus.unwrap_or((self.source.cpus.len(), 1));
        if self.source.cpus.len() > count {
            let last = self
                .source
                .cpus
                .last()
                .and_then(Option::as_ref)
                .map_or(1, |cpu| cpu.line);
            return problem(
                last,
                format!(
                    "CPU {} of {count}; line {line} says how many",
                    self.source.cpus.len() - 1
                ),
            );
        }
        self.source.cpus.resize(count, None);
        if self.source.contexts.is_empty() {
            return problem(
                line,
                "no context; a line \"context NAME\" makes one, and every CPU has an idle one".to_string(),
            );
        }
        if count == 0 {
            return problem(line, "no CPU; a line \"cpu 0 idle_ctxt=NAME\" makes one".to_string());
        }
        let homeless = |cpu: &&Cpu| cpu.get(block::IDLE_CTXT).is_none();
        if let Some(cpu) = self.source.cpus.iter().flatten().find(homeless) {
            return problem(
                cpu.line,
                "a CPU without an idle context; idle_ctxt=NAME names it".to_string(),
            );
        }
        Ok(())
    }
}
