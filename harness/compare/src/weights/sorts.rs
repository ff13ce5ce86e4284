//! How many calls on machines that meet the conditions were held to them, and what the decisions
//! among them did.

use crate::{ask::Ask, generate::Case, weighing};
use image::{Answer, Call, Group, OPERATIONS, View, block as b, served, total_weight};

/// What a decision did; one may be of several sorts.
const SORTS: [&str; 8] = [
    "decisions held to the equality",
    "  of a machine with a context in charge that is not active",
    "  with a stolen entry",
    "  with a requeued holder",
    "  with a holder that leaves its weight",
    "  with a gone entry cleaned up",
    "  with a wake-up that entered",
    "  with a gone entry that stays",
];

#[derive(Default)]
pub struct Weights {
    /// Accepted calls from steady machines, by operation; groups last.
    steady: [u64; OPERATIONS.len() + 1],
    sorts: [u64; SORTS.len()],
}

pub trait Counted: Ask {
    /// Its place among the operations; the group is behind them.
    fn place(&self) -> Option<usize>;
    fn call(&self) -> Option<&Call>;
}

impl Counted for Call {
    fn place(&self) -> Option<usize> {
        (self.operation as usize).checked_sub(1)
    }
    fn call(&self) -> Option<&Call> {
        self.decision()
    }
}

impl Counted for Group {
    fn place(&self) -> Option<usize> {
        Some(OPERATIONS.len())
    }
    fn call(&self) -> Option<&Call> {
        None
    }
}

impl Weights {
    pub fn add<A: Counted>(
        &mut self,
        case: &Case<A>,
        answer: &Answer,
        after: &[u64],
        steady: bool,
    ) {
        if answer.refusal != 0 {
            return;
        }
        let place = case.call.place().filter(|_| steady);
        if let Some(count) = place.and_then(|place| self.steady.get_mut(place)) {
            *count += 1;
        }
        let call = case.call.call();
        if let Some(call) = call.filter(|call| weighing::applies(&case.image, call)) {
            let sorts = sorts(View(&case.image), call, View(after), steady);
            for (count, holds) in self.sorts.iter_mut().zip(sorts) {
                *count += u64::from(holds);
            }
        }
    }
    pub fn print(&self) {
        for (name, cases) in SORTS.iter().zip(self.sorts) {
            println!("{name:58} {cases:8}");
        }
        println!("accepted calls that keep all conditions, with the stronger word");
        let names = OPERATIONS.iter().chain(&["unblock_group"]);
        for (name, cases) in names.zip(self.steady) {
            println!("  {name:56} {cases:8}");
        }
    }
}

fn sorts(before: View, call: &Call, after: View, steady: bool) -> [bool; SORTS.len()] {
    let here = call.cpu as usize;
    let holder = before.block(here, b::SCHED_CTXT);
    let queued = |image: View, cpu, context| served::queued(image, cpu).any(|x| x == context);
    let anywhere = |context| total_weight::present(before).any(|cpu| queued(before, cpu, context));
    let gone = |context: &u64| before.gone(*context as usize);
    let entered = |context: u64| context != holder && !anywhere(context);
    let in_charge = after.block(here, b::SCHED_CTXT);
    let idle = |context: u64| total_weight::idle(before, context as usize);
    let active = |image: View| image.context(holder as usize, image::context::IS_ACTIVE) == 1;
    [
        true,
        !steady,
        served::stole(before, here, after),
        queued(after, here, holder),
        active(before) && !active(after),
        served::queued(before, here)
            .filter(gone)
            .any(|context| !queued(after, here, context)),
        served::queued(after, here)
            .chain([in_charge].into_iter().filter(|context| !idle(*context)))
            .any(entered),
        served::queued(after, here).any(|context| gone(&context)),
    ]
}

#[cfg(test)]
mod tests {
    use super::{Counted, Weights};
    use crate::{expected::KERNEL, generate::Stream, weighing, weights::step};

    /// Machines made for it meet the conditions, and every sort of decision and every operation
    /// is among 6000 cases.
    #[test]
    fn all_sorts() {
        let _alone = KERNEL.lock();
        let (mut stream, mut tally) = (Stream::weighed(1), Weights::default());
        for _ in 0..6000 {
            let mut case = stream.next();
            assert!(weighing::weighed(&case.image));
            if !weighing::inside(&case.image, &case.call) {
                case.call.operation = 5;
            }
            stream.answered(&step(&case, &mut tally).expect("no difference"));
            assert!(case.call.place().is_some());
        }
        assert!(
            tally.sorts.iter().all(|count| *count >= 20),
            "{:?}",
            tally.sorts
        );
        let operations = &tally.steady[..7];
        assert!(
            operations.iter().all(|count| *count >= 20),
            "{operations:?}"
        );
    }
}
