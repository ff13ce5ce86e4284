//! Lines that name contexts: of CPUs, queues, timers and lists.

use super::builder::Builder;
use super::{Cpu, ENTRY_WORDS, Entry, Listed, Timer, Told};
use crate::names::Names;
use crate::near::nearest;
use crate::place::single_word;
use crate::places::{block, context};
use crate::tables::{CPUS, LAST, ROOM, SINGLE};
use crate::value;
use crate::word::{Unit, Word};
use alloc::format;
use alloc::string::{String, ToString};
use alloc::vec::Vec;

impl Builder {
    /// A line that names contexts.
    pub(super) fn named(&mut self, number: u32, line: &str) -> Result<(), String> {
        let words: Vec<&str> = line.split_whitespace().collect();
        let cpu = words.get(1).copied().unwrap_or("");
        let cpu = cpu.trim_end_matches(':');
        let at = value::number(cpu).filter(|at| *at < CPUS);
        let Some(at) = at else {
            return Err(format!(
                "\"{cpu}\" is no CPU; 0 to {} are, behind {}",
                CPUS - 1,
                words[0]
            ));
        };
        let (at, rest) = (at as usize, &words[2..]);
        if words[0] != "cpu" && self.source.cpus.get(at).is_none_or(Option::is_none) {
            let earlier =
                format!("no line \"cpu {at}\" before this one; a CPU comes before its queue, timers and lists");
            return Err(earlier);
        }
        match words[0] {
            "cpu" => self.cpu(number, at, rest),
            "queue" => self.queue(number, at, rest),
            "timer" => self.timer(number, at, rest),
            list => self.list(number, at, list == "ipi", rest),
        }
    }

    fn cpu(&mut self, number: u32, at: usize, rest: &[&str]) -> Result<(), String> {
        if self.source.cpus.len() <= at {
            self.source.cpus.resize(at + 1, None);
        }
        let mut cpu = match self.source.cpus[at].take() {
            // More words of the same CPU on a line of their own.
            Some(cpu) => cpu,
            None => Cpu::new(number),
        };
        let mut result = Ok(());
        for (word, text) in rest.iter().map(|word| split(word)) {
            let told = single_word(word).and_then(|place| {
                let row = match place {
                    block::LAST.. => &LAST[place - block::LAST],
                    _ => &SINGLE[place],
                };
                let value = told(row, text, &self.source.names);
                once(
                    &mut cpu.told[Cpu::place(place)],
                    word,
                    *value.as_ref().unwrap_or(&0),
                    number,
                )?;
                value.map(|_| ())
            });
            result = result.and(told);
        }
        self.source.cpus[at] = Some(cpu);
        result
    }

    fn queue(&mut self, number: u32, cpu: usize, rest: &[&str]) -> Result<(), String> {
        let Some((name, words)) = rest.split_first() else {
            return Err("an entry of nobody; queue CPU NAME WORD=VALUE ..".to_string());
        };
        let mut entry = Entry {
            line: number,
            cpu,
            context: value::parse(Unit::Context, name, &self.source.names)?,
            told: [None; ENTRY_WORDS.len()],
        };
        for (word, text) in words.iter().map(|word| split(word)) {
            let known = ENTRY_WORDS.iter().position(|(name, _, _)| *name == word);
            let nth = known.ok_or_else(|| {
                let names: Vec<&str> = ENTRY_WORDS.iter().map(|(name, _, _)| *name).collect();
                format!("an entry has no word \"{word}\"; {}", nearest(word, &names))
            })?;
            let text = text.ok_or_else(|| format!("\"{word}\" without a value; {word}=VALUE"))?;
            let value =
                value::parse(ENTRY_WORDS[nth].2, text, &self.source.names).map_err(|says| format!("{word}: {says}"))?;
            once(&mut entry.told[nth], word, value, number)?;
        }
        let here = self.source.queue.iter().filter(|other| other.cpu == cpu).count();
        room(here, "queue")?;
        self.source.queue.push(entry);
        Ok(())
    }

    fn timer(&mut self, number: u32, cpu: usize, rest: &[&str]) -> Result<(), String> {
        let allowed = "timer CPU NAME, with wake=TIME if it is not the context's own";
        let (name, wake) = match rest {
            [name] => (name, None),
            [name, wake] => match split(wake) {
                ("wake", Some(text)) => (name, Some(value::parse(Unit::Nanoseconds, text, &self.source.names)?)),
                _ => return Err(format!("\"{wake}\" behind a timer; {allowed}")),
            },
            [] => return Err(format!("a timer of nobody; {allowed}")),
            [_, _, more, ..] => return Err(format!("\"{more}\" behind a timer; {allowed}")),
        };
        let context = value::parse(Unit::Context, name, &self.source.names)?;
        let own = self
            .source
            .contexts
            .get(context as usize)
            .and_then(|own| own.told[context::WAKE]);
        if wake.is_none() && own.is_none() {
            return Err(format!(
                "a timer of {name}, which has no wake; timer {cpu} {name} wake=TIME, or wake=TIME with the context"
            ));
        }
        let here = self.source.timers.iter().filter(|other| other.cpu == cpu).count();
        room(here, "timer set")?;
        self.source.timers.push(Timer {
            line: number,
            cpu,
            context,
            wake,
        });
        Ok(())
    }

    fn list(&mut self, number: u32, cpu: usize, interrupt: bool, rest: &[&str]) -> Result<(), String> {
        if rest.is_empty() {
            return Err("a list of nobody; local CPU NAME .. and ipi CPU NAME .. are lists".to_string());
        }
        for name in rest {
            let context = value::parse(Unit::Context, name, &self.source.names)?;
            let same = |other: &&Listed| (other.cpu, other.interrupt) == (cpu, interrupt);
            room(self.source.lists.iter().filter(same).count(), "list")?;
            self.source.lists.push(Listed {
                line: number,
                cpu,
                interrupt,
                context,
            });
        }
        Ok(())
    }
}

fn room(here: usize, what: &str) -> Result<(), String> {
    match here as u64 >= ROOM {
        true => Err(format!("one item more than a {what} takes; it takes {ROOM}")),
        false => Ok(()),
    }
}

/// `word=value`, or a word alone.
pub fn split(word: &str) -> (&str, Option<&str>) {
    match word.split_once('=') {
        Some((word, value)) => (word, Some(value)),
        None => (word, None),
    }
}

/// The value of a word of a record or a block; a mark alone is set.
pub fn told(word: &Word, text: Option<&str>, names: &Names) -> Result<u64, String> {
    match (text, word.unit) {
        (None, Unit::Mark) => Ok(1),
        (None, _) => Err(format!("\"{0}\" without a value; {0}=VALUE", word.name)),
        (Some(text), unit) => value::parse(unit, text, names).map_err(|says| format!("{}: {says}", word.name)),
    }
}

pub fn once(told: &mut Told, word: &str, value: u64, number: u32) -> Result<(), String> {
    match told {
        Some((_, line)) => Err(format!("a second {word}; the first is in line {line}")),
        None => {
            *told = Some((value, number));
            Ok(())
        }
    }
}
