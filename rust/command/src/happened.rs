//! Making a call, and what happened in it: who came in charge, timers, thefts.

use crate::refused::{Disagreement, explained};
use ronthuyal::words::{Call, Explanation, Labels, View, block, context};
use ronthuyal::{Call as Typed, Done, Image, Outcome, Refusal};

/// What became of a timer.
#[derive(Clone, Copy, Debug, PartialEq, Eq, Hash)]
pub enum Fate {
    /// Its context was woken.
    Served,
    /// It came due and stays in the set.
    Kept,
    /// It left the set, and its context sleeps on.
    Lost,
    /// It left the set, and nobody waited for it.
    Dropped,
    /// It is new in the set.
    Set,
}

impl Fate {
    pub fn name(self) -> &'static str {
        match self {
            Self::Served => "served",
            Self::Kept => "kept",
            Self::Lost => "lost",
            Self::Dropped => "dropped",
            Self::Set => "set",
        }
    }
}

/// What a call did, in lists that are used again for the next one.
#[derive(Default)]
pub struct Happened {
    pub timers: Vec<(Fate, u64)>,
    /// Whom this CPU took from another, and from which.
    pub stolen: Vec<(u64, usize)>,
    pub why: Option<Explanation>,
    /// What asking gave.
    pub reply: Option<[u64; 5]>,
    before: Vec<(u64, u64, bool)>,
    elsewhere: Vec<(u64, usize)>,
}

impl Happened {
    /// Makes the call. A refused one is explained, and the numbers must be the same.
    pub fn make(
        &mut self,
        words: &mut [u64],
        call: &Call,
        labels: &Labels,
    ) -> Result<Result<Done, Refusal>, Disagreement> {
        let answer = self.call(words, call);
        if let Err(refusal) = answer {
            self.why = explained(words, call, refusal, labels)?;
        }
        Ok(answer)
    }

    /// Makes the call, and explains nothing.
    pub fn call(&mut self, words: &mut [u64], call: &Call) -> Result<Done, Refusal> {
        self.timers.clear();
        self.stolen.clear();
        self.why = None;
        self.reply = None;
        self.look(words, call);
        let mut image = Image::new(words);
        if let Call::Ask { cpu, time } = *call {
            let asked = image.ask(ronthuyal::Cpu(cpu), ronthuyal::Time::from_nanos(time));
            self.reply = asked.ok().map(|reply| reply.words);
        }
        let answer = image.call(&Typed::from_words(*call));
        if answer.is_ok() && !matches!(call, Call::Ask { .. }) {
            self.compare(image.into_words(), call);
        }
        answer
    }

    /// Notes what the call may change: the timers here, and who is queued elsewhere.
    fn look(&mut self, words: &[u64], call: &Call) {
        self.before.clear();
        self.elsewhere.clear();
        let Some((view, here)) = decides_here(words, call) else {
            return;
        };
        self.before.extend(
            view.timers(here)
                .map(|(wake, owner)| (wake, owner, waits(view, wake, owner))),
        );
        for cpu in view.present_cpus().filter(|cpu| *cpu != here) {
            self.elsewhere.extend(view.queue(cpu).map(|owner| (owner, cpu)));
        }
    }

    fn compare(&mut self, words: &[u64], call: &Call) {
        let Some((view, here)) = decides_here(words, call) else {
            return;
        };
        let time = call.time().unwrap_or(0);
        for (wake, owner, waited) in &self.before {
            let stays = view.timers(here).any(|timer| timer == (*wake, *owner));
            let due = *wake <= time.saturating_add(1);
            let fate = match (stays, waited) {
                (true, _) if due => Fate::Kept,
                (true, _) => continue,
                (false, false) => Fate::Dropped,
                (false, true) if waits(view, *wake, *owner) => Fate::Lost,
                (false, true) => Fate::Served,
            };
            self.timers.push((fate, *owner));
        }
        for (wake, owner) in view.timers(here) {
            if !self.before.iter().any(|(w, o, _)| (*w, *o) == (wake, owner)) {
                self.timers.push((Fate::Set, owner));
            }
        }
        if self.elsewhere.is_empty() {
            return;
        }
        // Stolen: was queued there and is no more, and is queued or in charge here.
        let charged = view.block(here, block::SCHED_CTXT);
        for (owner, cpu) in &self.elsewhere {
            let came = *owner == charged || view.queue(here).any(|other| other == *owner);
            if came && !view.queue(*cpu).any(|other| other == *owner) {
                self.stolen.push((*owner, *cpu));
            }
        }
    }
}

fn decides_here<'a>(words: &'a [u64], call: &Call) -> Option<(View<'a>, usize)> {
    let view = View::new(words).filter(|_| call.decides())?;
    let here = call.cpu();
    (here < view.cpus() as u64).then_some((view, here as usize))
}

/// Whether a context is soft-blocked with just this wake.
fn waits(view: View, wake: u64, owner: u64) -> bool {
    let word = |word| view.record(owner as usize, word);
    owner < view.contexts() as u64
        && word(context::STATUS) == context::BLOCKED
        && word(context::HAS_WAKE) == 1
        && word(context::WAKE) == wake
}

/// The outcome in words.
pub fn outcome(call: &Call, answer: &Result<Done, Refusal>) -> String {
    match answer {
        Err(refusal) => format!("refused {}", refusal.number()),
        Ok(done) => match (done.outcome, call) {
            (Outcome::Number(count), Call::UnblockGroup { .. }) => format!("{count} unblocked"),
            (Outcome::Number(sum), Call::TotalWeight { .. }) => format!("weight {sum}"),
            (Outcome::NotDue, _) => "not due".to_string(),
            (other, _) => other.to_string(),
        },
    }
}
