//! The moment that is explored: an image, a call, and what follows it in a trace.

use super::dimension::Space;
use crate::calls::{self, Last};
use crate::load;
use crate::stop::Stop;
use ronthuyal::words::text::{Packed, first, without_comment};
use ronthuyal::words::{Call, Names, Place, View, locks};
use std::path::Path;

/// What follows the call of the moment.
#[derive(Clone, Debug, PartialEq, Eq)]
pub enum Step {
    /// Somebody else writes a word.
    Set(usize, u64),
    Call(Call),
}

#[derive(Clone, Debug, PartialEq, Eq)]
pub struct Moment {
    pub file: String,
    pub words: Vec<u64>,
    pub names: Names,
    /// The call as it was written.
    pub written: String,
    pub call: Call,
    /// The lines that follow, as they were written, and what they are.
    pub lines: Vec<String>,
    pub steps: Vec<Step>,
    /// The context that is asked about.
    pub asked: Option<u64>,
    /// The context whose lateness is asked for, where calls follow.
    pub late: Option<u64>,
    /// Whether locks stay held behind the moment's call.
    pub hold: bool,
}

impl Moment {
    /// The moment of a file: an image, or a trace whose first call is taken if none is given. So many calls follow.
    pub fn load(path: &Path, given: &[String], more: usize) -> Result<Self, Stop> {
        let bytes = load::bytes(path)?;
        let loaded = load::read(path, &bytes)?.whole()?;
        let behind = load::is_text(&bytes).map_or_else(Vec::new, calls_and_sets);
        let mut moment = Self {
            file: path.display().to_string(),
            words: loaded.packed.words,
            names: loaded.packed.names,
            written: given.join(" "),
            call: Call::TotalWeight { cpu: 0 },
            lines: Vec::new(),
            steps: Vec::new(),
            asked: None,
            late: None,
            hold: false,
        };
        if View::new(&moment.words).is_none() {
            let says = format!(
                "{}: sizes and length do not agree; ronthuyal check says more",
                path.display()
            );
            return Err(Stop::not_understood(says));
        }
        let mut behind = behind.into_iter();
        if given.is_empty() {
            let Some((_, line)) = behind.find(|(_, line)| first(line) == "call") else {
                let says =
                    "no call in it; explore FILE OPERATION CPU TIME gives one, as explore moment.txt switch 0 1s";
                return Err(Stop::not_understood(format!("{}: {says}", path.display())));
            };
            moment.written = line["call".len()..].trim().to_string();
        }
        moment.called(path)?;
        moment.follow(path, behind, more)?;
        Ok(moment)
    }

    /// Reads the call of the moment.
    fn called(&mut self, path: &Path) -> Result<(), Stop> {
        let call = calls::parse(self.written.split_whitespace(), &self.names, Last::default());
        self.call = call.map_err(|says| Stop::not_understood(format!("{}: {says}", path.display())))?;
        Ok(())
    }

    /// Takes lines up to the last of so many calls.
    pub fn follow(&mut self, path: &Path, lines: impl Iterator<Item = (u32, String)>, more: usize) -> Result<(), Stop> {
        let packed = Packed::of(self.words.clone(), self.names.clone());
        let mut last = Last {
            time: self.call.time(),
            reply: None,
        };
        let mut calls = 0;
        for (number, line) in lines {
            if calls == more || first(&line) == "image" {
                break;
            }
            let wrong = |says: String| Stop::at(path, number, &says);
            let step = match first(&line) {
                "call" => {
                    calls += 1;
                    let call = calls::parse(line.split_whitespace().skip(1), &self.names, last).map_err(wrong)?;
                    last.time = call.time().or(last.time);
                    Step::Call(call)
                }
                _ => {
                    let (place, value) = line["set".len()..]
                        .split_once('=')
                        .ok_or_else(|| wrong("no = behind the place; set PLACE = VALUE".to_string()))?;
                    let (word, value) = packed.assigned(place.trim(), value.trim()).map_err(wrong)?;
                    Step::Set(word, value)
                }
            };
            self.lines.push(line);
            self.steps.push(step);
        }
        match calls == more {
            true => Ok(()),
            false => Err(Stop::not_understood(format!(
                "{}: --calls {more}: {calls} calls follow the moment; up to {calls} is allowed",
                path.display()
            ))),
        }
    }

    /// A moment as a part of an answer has kept it.
    pub fn kept(file: &str, packed: Packed, written: &str, lines: &[String]) -> Result<Self, Stop> {
        let path = Path::new(file);
        let mut moment = Self {
            file: file.to_string(),
            words: packed.words,
            names: packed.names,
            written: written.to_string(),
            call: Call::TotalWeight { cpu: 0 },
            lines: Vec::new(),
            steps: Vec::new(),
            asked: None,
            late: None,
            hold: false,
        };
        moment.called(path)?;
        let more = lines.iter().filter(|line| first(line) == "call").count();
        moment.follow(path, (1..).zip(lines.iter().cloned()), more)?;
        Ok(moment)
    }

    /// Whom `--for` names; and whose lateness is asked for, the one whose timer is due if nobody is named.
    pub fn ask(&mut self, name: Option<&str>) -> Result<(), Stop> {
        let contexts = self.view().contexts();
        if let Some(name) = name {
            let found = self.names.find(name, contexts);
            let found = found.map_err(|says| Stop::not_understood(format!("--for: {says}")))?;
            self.asked = Some(found as u64);
        }
        self.late = self.asked;
        if self.steps.is_empty() || self.late.is_some() {
            return Ok(());
        }
        let time = self.call.time().unwrap_or(0).saturating_add(1);
        let timers = self
            .here()
            .into_iter()
            .flat_map(|here| self.view().timers(here).collect::<Vec<_>>());
        let due: Vec<u64> = timers
            .filter(|(wake, _)| *wake <= time)
            .map(|(_, owner)| owner)
            .collect();
        match due[..] {
            [one] => self.late = Some(one),
            _ => {
                let says = format!(
                    "--calls: {} timers are due; --for NAME says whose lateness is asked for",
                    due.len()
                );
                return Err(Stop::not_understood(says));
            }
        }
        Ok(())
    }

    pub fn view(&self) -> View<'_> {
        View::new(&self.words).unwrap_or_else(|| unreachable!("a moment's sizes and length agree"))
    }
    /// The CPU of the call, where there is such a one.
    pub fn here(&self) -> Option<usize> {
        let cpu = self.call.cpu();
        let view = self.view();
        (cpu < view.cpus() as u64 && view.present(cpu as usize)).then_some(cpu as usize)
    }
    /// The locks that are let go behind the moment's call, and what they are then: as the image has them.
    pub fn let_go(&self, space: &Space) -> Vec<(usize, u64)> {
        let words = space
            .dimensions
            .iter()
            .map(|dimension| dimension.word)
            .filter(|_| !self.hold);
        let locks = words.filter(|word| locks::is_lock(Place::of(self.words[0], self.words[1], *word)));
        locks.map(|word| (word, self.words[word])).collect()
    }
    /// All calls, that of the moment first.
    pub fn calls(&self) -> impl Iterator<Item = &Call> {
        let more = self.steps.iter().filter_map(|step| match step {
            Step::Call(call) => Some(call),
            Step::Set(..) => None,
        });
        std::iter::once(&self.call).chain(more)
    }
}

/// The lines of a trace from its first call on that do something, with their numbers.
fn calls_and_sets(text: &str) -> Vec<(u32, String)> {
    let lines = (1..)
        .zip(text.lines())
        .map(|(number, line)| (number, without_comment(line)));
    lines
        .skip_while(|(_, line)| !matches!(first(line), "call" | "expect"))
        .filter(|(_, line)| matches!(first(line), "call" | "set" | "image"))
        .map(|(number, line)| (number, line.to_string()))
        .collect()
}
