//! The way to an outcome in words: whose timers came due, who was passed over and why, and by which rule it ended. What
//! is said of a context are words of the image before the call; who won is the archive's answer.

mod queue;
mod thefts;

use super::moment::Moment;
use super::outcome::Outcome;
use crate::refused::explained;
use ronthuyal::Refusal;
use ronthuyal::words::locks::{READ, WRITTEN};
use ronthuyal::words::value::show_time;
use ronthuyal::words::{Labels, RULES, View, block, context};

/// The rules as docs/SCHEDULING.md words them.
const WHY: [&str; 10] = [
    "",
    "of those waiting that have not had more than their share, the one with the earliest deadline",
    "who ran goes on: it is within its share, and its deadline is earlier",
    "who ran goes on: the same deadline, and more of its slice left",
    "who ran goes on: nobody else that can run is within its share",
    "who ran goes on: nobody is within its share, and nobody that can run has had less",
    "who ran goes on: nobody is within its share, and its deadline is not later",
    "nobody is within its share, and this one has had least",
    "taken from another CPU, as nobody here could run",
    "nobody here could run, and nobody was taken from elsewhere",
];

struct Way<'a> {
    moment: &'a Moment,
    before: View<'a>,
    after: View<'a>,
    outcome: &'a Outcome,
    here: usize,
    time: u64,
    holder: u64,
    told: Vec<String>,
}

/// What happened in a state, sentence by sentence.
pub fn way(moment: &Moment, before: &[u64], after: &[u64], outcome: &Outcome) -> Vec<String> {
    if let Some(refusal) = Refusal::new(outcome.refusal) {
        return vec![refused(moment, before, refusal)];
    }
    let views = View::new(before).zip(View::new(after)).zip(moment.here());
    let Some(((before, after), here)) = views.filter(|_| outcome.rule > 0) else {
        return vec!["Nothing was decided, and no lock was tried.".to_string()];
    };
    let mut way = Way {
        moment,
        before,
        after,
        outcome,
        here,
        time: moment.call.time().unwrap_or(0),
        holder: before.block(here, block::SCHED_CTXT),
        told: Vec::new(),
    };
    way.timers();
    way.listed();
    way.queue();
    way.thefts();
    let rule = outcome.rule as usize;
    let name = moment.names.of(outcome.in_charge);
    let why = WHY[rule];
    way.told
        .push(format!("{name} is in charge by rule {rule}, {}: {why}.", RULES[rule]));
    way.told
}

fn refused(moment: &Moment, words: &[u64], refusal: Refusal) -> String {
    let labels = Labels {
        names: &moment.names,
        lines: &[],
    };
    let why = explained(words, &moment.call, refusal, &labels).ok().flatten();
    let why = why.map_or_else(String::new, |why| format!(": {why}"));
    format!("The call is refused with {}{why}.", refusal.number())
}

impl Way<'_> {
    fn name(&self, number: u64) -> String {
        self.moment.names.of(number)
    }
    fn word(&self, number: u64, word: usize) -> u64 {
        self.before.record(number as usize, word)
    }
    /// Why its record cannot be taken, if another CPU has it.
    fn locked(&self, number: u64) -> Option<&'static str> {
        match self.word(number, context::LOCK) {
            READ => Some("another CPU is reading its record"),
            WRITTEN => Some("another CPU is writing its record"),
            _ => None,
        }
    }

    fn timers(&mut self) {
        for (wake, owner) in self.before.timers(self.here) {
            if wake > self.time.saturating_add(1) {
                continue;
            }
            let waits = self.word(owner, context::STATUS) == context::BLOCKED
                && (self.word(owner, context::HAS_WAKE), self.word(owner, context::WAKE)) == (1, wake);
            let written = self.word(owner, context::LOCK) == WRITTEN;
            let came = match self.locked(owner) {
                _ if self.before.gone(owner as usize) => "it is gone, and the timer is dropped".to_string(),
                _ if owner == self.holder => "it is in charge here, and the timer stays in the set".to_string(),
                Some(locked) if written || waits => format!("{locked}, and the timer stays in the set"),
                _ if !waits => "it does not wait for it, and the timer is dropped".to_string(),
                _ => "it is woken".to_string(),
            };
            let told = format!(
                "The timer of {} for {} is due: {came}.",
                self.name(owner),
                show_time(wake)
            );
            self.told.push(told);
        }
    }

    fn listed(&mut self) {
        for slot in 0..self.before.used(self.here, block::LOCAL_COUNT) {
            let owner = self.before.block(self.here, block::LOCAL_WAKEUP_LIST + slot);
            let word = |word| self.word(owner, word);
            let came = match self.locked(owner) {
                _ if owner == self.holder => "it is in charge here, and passed over".to_string(),
                _ if self.before.gone(owner as usize) => "it is gone, and passed over".to_string(),
                Some(locked) => format!("{locked}, and it stays on the list"),
                None if word(context::STATUS) != context::RUNNABLE => "it is not runnable, and passed over".to_string(),
                None if word(context::USERSPACE) == 0 => "it is not of userspace, and passed over".to_string(),
                None if word(context::CURRENTLY_SCHEDULED) == 1 => "it is in charge, and passed over".to_string(),
                None => "it goes into the queue".to_string(),
            };
            self.told
                .push(format!("{} is on the local list: {came}.", self.name(owner)));
        }
    }
}
