//! What plain calls must meet.

use crate::met::Met;
use image::{Answer, Call, ROOM, RULES, View, block as b, context as c, decision};
use std::collections::BTreeMap;

const TWICE: &str = "a context queued twice here";
const BOTH: &str = "a context queued here and elsewhere";
const WEIGHTS: &str = "a blocked one with two weights cleaned up";
const CLEANED: &str = "an entry of one that cannot run cleaned up";
const LEFT: &str = "an entry of one that cannot run left";
const FULL: &str = "a full queue here";
const STOLEN: &str = "one stolen";
const TWO: &str = "two stolen";
const PUT_BACK: &str = "a timer or a name put back";
const SERVED: &str = "two timers served";
const NO_ROOM: &str = "no room";
const REFUSED: &str = "refused by another number";
const UNDECIDED: [&str; 3] = ["an undue tick", "a direct switch", "a switch back"];
const OTHER: [&str; 4] = ["operation 4", "operation 5", "operation 6", "operation 7"];

pub fn names() -> Vec<&'static str> {
    let sorts = [
        TWICE, BOTH, WEIGHTS, CLEANED, LEFT, FULL, STOLEN, TWO, PUT_BACK, SERVED, NO_ROOM, REFUSED,
    ];
    [&sorts[..], &UNDECIDED, &OTHER, &RULES[1..]].concat()
}

/// The weights of each context's entries there.
fn queued(image: View, cpu: usize) -> BTreeMap<u64, Vec<u64>> {
    let mut weights: BTreeMap<u64, Vec<u64>> = BTreeMap::new();
    for slot in 0..image.block(cpu, b::QUEUE_COUNT) as usize {
        let context = image.block(cpu, b::ENTRY_CONTEXT_REF + slot);
        let weight = image.block(cpu, b::ENTRY_WEIGHT + slot);
        weights.entry(context).or_default().push(weight);
    }
    weights
}

pub fn note(met: &mut Met, image: &[u64], call: &Call, answer: &Answer, after: &[u64]) {
    match answer.refusal {
        0 => accepted(met, View(image), call, answer, View(after)),
        9 => met.note(NO_ROOM),
        _ => met.note(REFUSED),
    }
}

fn accepted(met: &mut Met, image: View, call: &Call, answer: &Answer, after: View) {
    match call.operation {
        4..=7 => return met.note(OTHER[call.operation as usize - 4]),
        1 if answer.rule == 0 && answer.result == 0 => return met.note(UNDECIDED[0]),
        3 if answer.rule == 0
            && after.block(call.cpu as usize, b::CURRENT_CTXT) == call.context =>
        {
            return met.note(UNDECIDED[1]);
        }
        _ if answer.rule == 0 => return met.note(UNDECIDED[2]),
        _ => met.note(RULES[answer.rule as usize]),
    }
    let here = call.cpu as usize;
    let (before, now) = (queued(image, here), queued(after, here));
    let times = |queue: &BTreeMap<u64, Vec<u64>>, x: u64| queue.get(&x).map_or(0, Vec::len);
    met.note_if(image.block(here, b::QUEUE_COUNT) == ROOM as u64, FULL);
    met.note_if(before.values().any(|weights| weights.len() > 1), TWICE);
    for context in 0..image.contexts() as u64 {
        let stops = image.gone(context as usize)
            || image.context(context as usize, c::STATUS) == c::STOPPED;
        let (was, is) = (times(&before, context), times(&now, context));
        let mut others = (0..image.cpus()).filter(|cpu| *cpu != here);
        met.note_if(
            was > 0 && others.any(|cpu| times(&queued(image, cpu), context) > 0),
            BOTH,
        );
        met.note_if(stops && is < was, CLEANED);
        met.note_if(stops && is > 0, LEFT);
        let weights = before.get(&context).filter(|_| stops && is == 0 && was > 1);
        met.note_if(
            weights.is_some_and(|w| w.iter().any(|one| *one != w[0])),
            WEIGHTS,
        );
    }
    let lost = |cpu: &usize| {
        let count = |image: View| image.block(*cpu, b::QUEUE_COUNT);
        count(image) - count(after)
    };
    let stolen: u64 = (0..image.cpus())
        .filter(|cpu| *cpu != here)
        .map(|cpu| lost(&cpu))
        .sum();
    met.note_if(stolen == 1, STOLEN);
    met.note_if(stolen == 2, TWO);
    let locked = |context: u64| image.context(context as usize, c::LOCK) == 1;
    let served: Vec<_> = decision::due(image, call)
        .filter(|due| due.record == decision::Record::Readable && due.fits)
        .collect();
    let names = (0..image.block(here, b::LOCAL_COUNT) as usize)
        .map(|slot| image.block(here, b::LOCAL_WAKEUP_LIST + slot));
    met.note_if(served.len() > 1, SERVED);
    met.note_if(
        served
            .iter()
            .map(|due| due.context)
            .chain(names)
            .any(locked),
        PUT_BACK,
    );
}
