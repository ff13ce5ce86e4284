//! Lock states of moments, as `ronthuyal explore` goes through them (rust/image, `locks`): generated moments in random
//! states of the locks that the call tries, on kernel and port; and other locks, which must change nothing.

use crate::{
    generate::{Case, Stream, rng::Rng},
    met::Met,
    port, report,
    run::{one, unedited},
};
use image::{Answer, View, block as b, check};
use ronthuyal_image::{Call, Place, View as Words, locks};

/// Of so many moments each sort must be met.
const ENOUGH: u64 = 3_000;
/// So many states of each moment are run.
const STATES: usize = 4;
const SORTS: [&str; 5] = [
    "states with another one in charge",
    "states with other timers",
    "states with other queues elsewhere",
    "states with another refusal",
    "states in which other locks are held too",
];

type Made = (Answer, Vec<u64>);

pub fn locks(seed: u64, count: u64) -> bool {
    unedited();
    let mut met = Met::of(&SORTS);
    let each = count / 3;
    let streams = [
        Stream::new(seed),
        Stream::timers(seed).carrying(),
        Stream::rules(seed).carrying(),
    ];
    let good = streams
        .into_iter()
        .all(|stream| all(stream, seed, each, &mut met));
    if good {
        println!(
            "{} moments of seed {seed} in lock states, no difference",
            each * 3
        );
    }
    // Without the kernel and without a port no call is made.
    let judged = port::THERE || cfg!(feature = "oracle");
    good && (!judged || met.hold(each * 3, ENOUGH))
}

fn all(mut stream: Stream, seed: u64, count: u64, met: &mut Met) -> bool {
    let mut rng = Rng::new(!seed);
    for number in 0..count {
        let case = stream.next();
        stream.answered(&case.image.clone());
        let accepted = check::image_refusal(&case.image, case.call.time) == 0;
        if accepted && !moment(&mut rng, &case, met) {
            println!("moment {number} of seed {seed}{}", stream.name());
            return false;
        }
    }
    true
}

/// Some states of a moment whose needed locks are free, each once more with other locks held.
fn moment(rng: &mut Rng, case: &Case, met: &mut Met) -> bool {
    let image::Call {
        operation,
        cpu,
        time,
        context,
    } = case.call;
    let call = Call::Operation {
        operation,
        cpu,
        time,
        context,
    };
    let Some(view) = Words::new(&case.image) else {
        return true;
    };
    let needed = locks::needed(view, &call);
    let tried = locks::tried(view, &call);
    let known = |place: &Place| needed.contains(place) || tried.contains(place);
    let others: Vec<Place> = locks::all(view)
        .into_iter()
        .filter(|place| !known(place))
        .collect();
    let mut free = case.clone();
    let of_live = |place: &&Place| locks::all(view).contains(place);
    for place in needed.iter().filter(of_live) {
        let index = place.index(view.contexts());
        free.image[index] = locks::values(view, *place)[0];
    }
    let mut first = None;
    for _ in 0..STATES {
        draw(rng, &mut free.image, &tried);
        let Some(made) = one(&free) else {
            return false;
        };
        let mut held = free.clone();
        draw(rng, &mut held.image, &others);
        if held.image != free.image {
            let Some(again) = one(&held) else {
                return false;
            };
            if !nothing_else(&free, &held, &made, &again) {
                return false;
            }
            met.note("states in which other locks are held too");
        }
        note(met, cpu, first.get_or_insert_with(|| made.clone()), &made);
    }
    true
}

/// Gives each of these locks one of its values.
fn draw(rng: &mut Rng, image: &mut [u64], places: &[Place]) {
    for place in places {
        let Some(view) = Words::new(image) else {
            return;
        };
        let values = locks::values(view, *place);
        let index = place.index(view.contexts());
        image[index] = rng.pick(&values);
    }
}

/// The answer is the same, and so is every word but the locks that were held, which are kept.
fn nothing_else(free: &Case, held: &Case, made: &Made, again: &Made) -> bool {
    let words = made.1.iter().zip(&again.1).enumerate();
    let differs = words.into_iter().find(|(index, (one, other))| {
        let (before, held) = (free.image[*index], held.image[*index]);
        match before == held {
            true => one != other,
            false => (**one, **other) != (before, held),
        }
    });
    if made.0 == again.0 && differs.is_none() {
        return true;
    }
    report::case(held);
    println!(
        "locks that the call does not try make a difference: {:?} and {:?}",
        made.0, again.0
    );
    if let Some((index, (one, other))) = differs {
        println!("  {}: {one} and {other}", report::word(&held.image, index));
    }
    false
}

/// What another state of the same moment came to.
fn note(met: &mut Met, cpu: u64, (answer, image): &Made, (other, other_image): &Made) {
    met.note_if(answer.refusal != other.refusal, SORTS[3]);
    let (one, other) = (View(image), View(other_image));
    let there = cpu < one.cpus() as u64;
    let cpu = cpu as usize;
    if !there {
        return;
    }
    let differs = |cpu: usize, word: usize| one.block(cpu, word) != other.block(cpu, word);
    met.note_if(differs(cpu, b::SCHED_CTXT), SORTS[0]);
    let timers = one.timers(cpu).ne(other.timers(cpu));
    met.note_if(timers, SORTS[1]);
    let elsewhere = (0..one.cpus()).any(|other| other != cpu && differs(other, b::QUEUE_COUNT));
    met.note_if(elsewhere, SORTS[2]);
}

#[cfg(all(test, feature = "oracle"))]
mod tests {
    use super::{ENOUGH, locks};
    use crate::expected::KERNEL;

    #[test]
    fn no_difference() {
        let _alone = KERNEL.lock();
        assert!(locks(1, ENOUGH / 5));
    }
}
