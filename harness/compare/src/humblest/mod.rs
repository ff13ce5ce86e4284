//! The humblest priority that still gets the CPU (document 02, No. 12): the port held to 40 trials
//! on the kernel's switch.

mod sorts;
#[cfg(all(test, feature = "oracle"))]
mod tests;

use crate::{
    generate::{Case, Stream, humblest as generate, rng::Rng},
    met::Met,
    port, report,
    run::{called, unedited},
};
use image::{
    Call, View, check,
    humblest::{self, Humblest, PRIORITIES, Tried},
    tidy,
};

/// Of so many cases each sort must be met.
const ENOUGH: u64 = 3_000;

/// What the trials give: the answer, and which priorities work.
pub struct Trials {
    pub answer: Humblest,
    pub working: [bool; PRIORITIES],
    /// The refusals of the trials.
    pub refused: Vec<u64>,
}

/// Nothing if table and kernel disagree on one of the switches.
pub fn trials(image: &[u64], tried: &Tried) -> Option<Trials> {
    let refusal = humblest::refusal(image, tried);
    let mut refused = Vec::new();
    let mut working = [false; PRIORITIES];
    if refusal == 0 {
        working = humblest::working(image, tried, |changed, call| {
            let (answer, after) = called(&changed, &call)?;
            refused.extend((answer.refusal != 0).then_some(answer.refusal));
            Some((answer, after))
        })?;
    }
    let answer = match refusal {
        0 => Humblest::of(&working),
        _ => Humblest::refused(refusal),
    };
    Some(Trials {
        answer,
        working,
        refused,
    })
}

pub fn humblest(seed: u64, count: u64) -> bool {
    unedited();
    let mut met = Met::of(&sorts::names());
    let each = count / 3;
    let streams = [
        Stream::new(seed),
        Stream::timers(seed).carrying(),
        Stream::rules(seed),
    ];
    let good = streams
        .into_iter()
        .all(|stream| all(stream, seed, each, &mut met));
    if good {
        println!("{} tried of seed {seed}, no difference", each * 3);
    }
    good && met.hold(each * 3, ENOUGH)
}

fn all(mut stream: Stream, seed: u64, count: u64, met: &mut Met) -> bool {
    let mut rng = Rng::new(!seed);
    for number in 0..count {
        let mut case = stream.next();
        stream.answered(&case.image.clone());
        let Call {
            cpu, time, context, ..
        } = case.call;
        let mut tried = Tried { cpu, time, context };
        if check::image_refusal(&case.image, time) == 0 {
            let sort = rng
                .below(2 * generate::SORTS.len())
                .saturating_sub(generate::SORTS.len());
            let machine = match rng.once_in(3) {
                true => generate::NEAR,
                false => rng.below(generate::MACHINES.len()),
            };
            met.note(generate::SORTS[sort]);
            met.note(generate::MACHINES[machine]);
            generate::tried(&mut rng, &mut case.image, sort, machine, &mut tried);
        }
        if held(&case, &tried, met).is_none() {
            println!("tried {number} of seed {seed}{}: {tried:?}", stream.name());
            return false;
        }
    }
    true
}

/// The port tries, and leaves the image as it is.
fn held(case: &Case, tried: &Tried, met: &mut Met) -> Option<()> {
    let trials = trials(&case.image, tried)?;
    sorts::note(met, &case.image, tried, &trials);
    let Trials {
        answer, working, ..
    } = trials;
    let mut image = case.image.clone();
    let got = port::humblest(&mut image, tried);
    if got.is_some_and(|got| got != answer) || image != case.image {
        report::case(case);
        println!(
            "expected {answer:?}, got {got:?}; image kept: {}",
            image == case.image
        );
        println!("working: {:?}", sorts::numbers(&working));
        return None;
    }
    // On a tidy machine the working numbers are 0 to the answer.
    if answer.refusal == 0 && tidy::holds(View(&case.image)) && sorts::has_gap(&working) {
        report::case(case);
        println!("a gap on a tidy machine: {:?}", sorts::numbers(&working));
        return None;
    }
    Some(())
}
