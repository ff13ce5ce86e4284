//! What a state comes to.

use super::dimension::Space;
use super::moment::{Moment, Step};
use crate::happened::{Fate, Happened};
use ronthuyal::words::{Call, View, block, context};

/// Where the context that is asked about is after the call.
#[derive(Clone, Copy, Debug, PartialEq, Eq, Hash, PartialOrd, Ord)]
pub enum Seat {
    InCharge(usize),
    Queued(usize),
    /// On a wake-up list.
    Listed(usize),
    /// Soft-blocked.
    Asleep,
    /// Runnable and nowhere, stopped, or gone.
    Nowhere,
}

/// What a state comes to. Two states with the same are told as one.
#[derive(Clone, Debug, Default, PartialEq, Eq, Hash)]
pub struct Outcome {
    /// 0 if the call was made.
    pub refusal: u64,
    pub result: u64,
    pub rule: u64,
    pub interrupt: bool,
    /// Who is in charge of the call's CPU afterwards.
    pub in_charge: u64,
    pub timers: Vec<(Fate, u64)>,
    pub stolen: Vec<(u64, usize)>,
    /// Where the context that is asked about is.
    pub seat: Option<Seat>,
    /// The call after which the one whose lateness is asked for is in charge, 0 for that of the moment; where calls follow.
    pub after: Option<u32>,
    /// How many of the calls that follow are refused.
    pub refused: u32,
}

/// Makes the calls of a moment, with lists that are used again for the next state.
pub struct Maker {
    happened: Happened,
    let_go: Vec<(usize, u64)>,
    pub outcome: Outcome,
}

impl Maker {
    pub fn new(moment: &Moment, space: &Space) -> Self {
        Self {
            happened: Happened::default(),
            let_go: moment.let_go(space),
            outcome: Outcome::default(),
        }
    }

    /// Makes the calls on the words of a state.
    pub fn make(&mut self, moment: &Moment, words: &mut [u64]) {
        let answer = self.happened.call(words, &moment.call);
        let (out, happened) = (&mut self.outcome, &self.happened);
        let done = answer.ok();
        out.refusal = answer.map_or_else(|refusal| refusal.number(), |_| 0);
        out.result = done.map_or(0, |done| done.result);
        out.rule = done.and_then(|done| done.rule).map_or(0, |rule| rule as u64);
        out.interrupt = done.is_some_and(|done| done.interrupt);
        out.timers.clone_from(&happened.timers);
        out.stolen.clone_from(&happened.stolen);
        let here = moment.here();
        out.in_charge = match (happened.reply, here) {
            (Some([_, _, in_charge, ..]), _) => in_charge,
            (None, Some(here)) => View::new(words).map_or(0, |view| view.block(here, block::SCHED_CTXT)),
            (None, None) => 0,
        };
        out.seat = None;
        out.after = None;
        out.refused = 0;
        if let Some(asked) = moment.asked {
            out.seat = View::new(words).map(|view| seat(view, asked));
        }
        if let Some(late) = moment.late.filter(|_| !moment.steps.is_empty()) {
            self.follow(moment, words, late);
        }
    }

    /// Makes the calls that follow, and notes when the context comes in charge.
    fn follow(&mut self, moment: &Moment, words: &mut [u64], asked: u64) {
        let mut number = 0;
        self.note(words, asked, number);
        self.let_go.iter().for_each(|(word, own)| words[*word] = *own);
        for step in &moment.steps {
            match step {
                Step::Set(word, value) => words[*word] = *value,
                Step::Call(call) => {
                    number += 1;
                    let refused = made(words, call);
                    self.outcome.refused += u32::from(refused);
                    self.note(words, asked, number);
                }
            }
        }
    }

    fn note(&mut self, words: &[u64], asked: u64, number: u32) {
        let charged = View::new(words).is_some_and(|view| matches!(seat(view, asked), Seat::InCharge(_)));
        if charged {
            self.outcome.after.get_or_insert(number);
        }
    }
}

/// Makes a call; whether it was refused.
fn made(words: &mut [u64], call: &Call) -> bool {
    ronthuyal::Image::new(words)
        .call(&ronthuyal::Call::from_words(*call))
        .is_err()
}

fn seat(view: View, number: u64) -> Seat {
    let present = || view.present_cpus();
    let listed = |cpu: usize| {
        let lists = [
            (block::LOCAL_COUNT, block::LOCAL_WAKEUP_LIST),
            (block::IPI_COUNT, block::IPI_CONTEXT_WAKEUP_LIST),
        ];
        lists.iter().any(|(count, list)| {
            let slots = 0..view.used(cpu, *count);
            slots.into_iter().any(|slot| view.block(cpu, list + slot) == number)
        })
    };
    if let Some(cpu) = present().find(|cpu| view.block(*cpu, block::SCHED_CTXT) == number) {
        return Seat::InCharge(cpu);
    }
    if let Some(cpu) = present().find(|cpu| view.queue(*cpu).any(|other| other == number)) {
        return Seat::Queued(cpu);
    }
    if let Some(cpu) = present().find(|cpu| listed(*cpu)) {
        return Seat::Listed(cpu);
    }
    match view.record(number as usize, context::STATUS) {
        context::BLOCKED => Seat::Asleep,
        _ => Seat::Nowhere,
    }
}
