//! Decisions over contexts that are queued several times: kernel and port side by side, where
//! engines could most easily part.

use crate::{
    generate::{Stream, corners as generate, rng::Rng},
    met::Met,
    run::{one, unedited},
};
use image::{Answer, Call, RULES, View, block as b, check, context as c};

/// Of so many cases each sort must be met.
const ENOUGH: u64 = 15_000;

const TWICE: &str = "a context queued twice here";
const BOTH: &str = "a context queued here and elsewhere";
const CLEANED: &str = "an entry of one that cannot run cleaned up";
const LEFT: &str = "an entry of one that cannot run left";
const NO_ROOM: &str = "no room";
const STOLEN: &str = "some stolen";

fn names() -> Vec<&'static str> {
    let sorts = [TWICE, BOTH, CLEANED, LEFT, NO_ROOM, STOLEN];
    [&sorts[..], &RULES].concat()
}

pub fn corners(seed: u64, count: u64) -> bool {
    unedited();
    let mut met = Met::of(&names());
    let (mut stream, mut rng) = (Stream::new(seed).carrying(), Rng::new(!seed));
    for number in 0..count {
        let mut case = stream.next();
        stream.answered(&case.image.clone());
        if check::image_refusal(&case.image, case.call.time) == 0 {
            generate::put(&mut rng, &mut case.image, &mut case.call);
        }
        let Some((answer, after)) = one(&case) else {
            println!("corner {number} of seed {seed}");
            return false;
        };
        note(&mut met, &case.image, &case.call, &answer, &after);
    }
    println!("{count} corners of seed {seed}, no difference");
    met.hold(count, ENOUGH)
}

/// How often each context that is queued there is.
fn queued(image: View, cpu: usize) -> Vec<u64> {
    let mut times = vec![0; image.contexts()];
    for slot in 0..image.block(cpu, b::QUEUE_COUNT) as usize {
        times[image.block(cpu, b::ENTRY_CONTEXT_REF + slot) as usize] += 1;
    }
    times
}

fn note(met: &mut Met, image: &[u64], call: &Call, answer: &Answer, after: &[u64]) {
    met.note_if(answer.refusal == 9, NO_ROOM);
    if answer.refusal != 0 {
        return;
    }
    let (image, after, here) = (View(image), View(after), call.cpu as usize);
    let (before, now) = (queued(image, here), queued(after, here));
    let elsewhere = |context: usize| {
        let mut others = (0..image.cpus()).filter(|cpu| *cpu != here);
        others.any(|cpu| queued(image, cpu)[context] > 0)
    };
    let twice = before.iter().any(|times| *times > 1);
    met.note_if(twice, TWICE);
    // By each rule where a context is queued twice.
    met.note_if(twice, RULES[answer.rule as usize]);
    for context in 0..image.contexts() {
        let stops = image.gone(context) || image.context(context, c::STATUS) == c::STOPPED;
        met.note_if(before[context] > 0 && elsewhere(context), BOTH);
        met.note_if(stops && now[context] < before[context], CLEANED);
        met.note_if(stops && now[context] > 0, LEFT);
        met.note_if(now[context] > before[context] && elsewhere(context), STOLEN);
    }
}

#[cfg(all(test, feature = "oracle"))]
mod tests;
