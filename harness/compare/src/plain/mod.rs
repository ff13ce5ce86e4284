//! The plain engine (document 02, No. 10) beside the fast one and the kernel, on images of every
//! kind; and an own reading of docs/PLAIN.md, which is held to the kernel too.

mod sorts;
#[cfg(all(test, feature = "oracle"))]
mod tests;

use crate::{
    ask::Ask,
    generate::{Case, Stream, corners, rng::Rng},
    met::Met,
    port, report,
    run::{one, unedited},
};
use image::{Answer, check};

/// Of so many cases each sort must be met.
const ENOUGH: u64 = 12_000;

/// Of a case that was compared: the plain engine answers and leaves the same.
pub fn also<A: Ask>(case: &Case<A>, answer: &Answer, after: &[u64]) -> Option<()> {
    let mut image = case.image.clone();
    let Some(got) = case.call.plain(&mut image) else {
        return Some(());
    };
    if report::differences(case, (answer, after), (&got, &image)) {
        println!("by the plain engine");
        return None;
    }
    Some(())
}

pub fn plain(seed: u64, count: u64) -> bool {
    unedited();
    let mut met = Met::of(&sorts::names());
    let each = count / 5;
    let streams = [
        Stream::new(seed).carrying(),
        Stream::timers(seed).carrying(),
        Stream::rules(seed),
        Stream::chains(seed).carrying(),
    ];
    let good = streams
        .into_iter()
        .all(|stream| all(stream, None, seed, each, &mut met))
        && all(
            Stream::new(!seed).carrying(),
            Some(Rng::new(seed)),
            seed,
            each,
            &mut met,
        );
    if good {
        println!("{} plain calls of seed {seed}, no difference", each * 5);
    }
    if !port::THERE {
        println!("NOT compared: there is no archive of the port.");
    }
    // Without the kernel and without a port no call is made.
    let judged = port::THERE || cfg!(feature = "oracle");
    good && (!judged || met.hold(each * 5, ENOUGH))
}

/// With `several`, contexts are queued several times.
fn all(mut stream: Stream, mut several: Option<Rng>, seed: u64, count: u64, met: &mut Met) -> bool {
    for number in 0..count {
        let mut case = stream.next();
        if let Some(rng) = &mut several
            && check::image_refusal(&case.image, case.call.time) == 0
        {
            corners::put(rng, &mut case.image, &mut case.call);
        }
        let Some(after) = step(&case, met) else {
            println!("plain call {number} of seed {seed}{}", stream.name());
            return false;
        };
        stream.answered(&after);
    }
    true
}

fn step(case: &Case, met: &mut Met) -> Option<Vec<u64>> {
    let (answer, after) = one(case)?;
    also(case, &answer, &after)?;
    read(case, &answer, &after)?;
    sorts::note(met, &case.image, &case.call, &answer, &after);
    Some(after)
}

/// The own reading answers and leaves what the kernel does.
#[cfg(feature = "oracle")]
fn read(case: &Case, answer: &Answer, after: &[u64]) -> Option<()> {
    use crate::{generate::weight, run::called};
    use image::{Call, plain};

    let other = |image: &mut Vec<u64>, call: &Call| {
        let (answer, after) = called(image, call).expect("table and kernel disagree");
        *image = after;
        answer
    };
    let (got, image) = plain::called(&case.image, &case.call, weight, other);
    if report::differences(case, (answer, after), (&got, &image)) {
        println!("by the own reading of the plain engine");
        return None;
    }
    Some(())
}

#[cfg(not(feature = "oracle"))]
fn read(_case: &Case, _answer: &Answer, _after: &[u64]) -> Option<()> {
    Some(())
}
