//! Runs of calls through the port's one export, held to single calls, which are held to the kernel:
//! every answer, every word, and how many calls were made.

mod chain;
mod sorts;
#[cfg(all(test, feature = "oracle"))]
mod tests;

pub use chain::Chain;

use crate::{
    generate::{Case, Kind, Stream, rng::Rng, runs as generate},
    met::Met,
    port, report,
    run::{one, unedited},
};
use image::{Call, check, run};

/// Of so many calls each sort must be met.
const ENOUGH: u64 = 30_000;

pub fn runs(seed: u64, count: u64) -> bool {
    unedited();
    let mut met = Met::of(&sorts::names());
    let mut calls = 0;
    let streams = [
        Stream::new(seed).carrying(),
        Stream::timers(seed).carrying(),
        Stream::rules(seed).carrying(),
    ];
    for mut stream in streams {
        let (name, until) = (stream.name(), calls + count / 3);
        let mut rng = Rng::new(!seed);
        let mut number = 0;
        while calls < until {
            let Some(made) = one_run(&mut stream, &mut rng, &mut met) else {
                println!("list {number} of seed {seed}{name}");
                return false;
            };
            calls += made + 1;
            number += 1;
        }
    }
    println!("{count} calls in lists of seed {seed}, no difference");
    if !port::THERE {
        println!("NOT compared: there is no archive of the port.");
    }
    // Without the kernel and without a port no call is made.
    let judged = port::THERE || cfg!(feature = "oracle");
    !judged || met.hold(count, ENOUGH)
}

/// How many calls it had, or nothing if there was a difference.
fn one_run(stream: &mut Stream, rng: &mut Rng, met: &mut Met) -> Option<u64> {
    let mut case = stream.next();
    stream.answered(&case.image.clone());
    let passes = check::image_refusal(&case.image, 0) == 0;
    let limit = passes && rng.once_in(2);
    if limit {
        generate::near(rng, &mut case.image);
    }
    let mut chain = Chain::from(&case.image);
    let mut time = case.call.time;
    for _ in 0..generate::length(rng) {
        let call = match passes {
            true => generate::call(rng, stream, chain.after(), time),
            false => generate::wild(rng, case.call),
        };
        time = generate::later(rng, time);
        let next = Case {
            kind: Kind::Chain,
            image: chain.after().to_vec(),
            call,
            chained: true,
        };
        let (answer, after) = one(&next)?;
        chain.push(&call, &answer, after);
    }
    sorts::note(met, &chain, passes, limit);
    let parts = rng.below(chain.calls.len() + 1);
    (chain.holds() && chain.holds_in_parts(parts) && misfits(rng, &chain, met))
        .then_some(chain.calls.len() as u64)
}

/// Lengths that do not fit: nothing is written.
fn misfits(rng: &mut Rng, chain: &Chain, met: &mut Met) -> bool {
    let mut calls = run::words(&chain.calls);
    let mut answers = vec![generate::RUBBISH; calls.len()];
    let more = rng.within(1, 9);
    let sort = rng.below(sorts::MISFITS.len());
    match sort {
        // No multiple of four, with as many answers.
        0 => {
            let words = calls.len() + rng.within(1, 3);
            calls.resize(words, 2);
            answers.resize(words, 0);
        }
        1 => answers.truncate(answers.len().saturating_sub(more)),
        _ => answers.resize(answers.len() + more, 0),
    }
    if calls.len() == answers.len() && calls.len().is_multiple_of(run::WORDS) {
        return true;
    }
    met.note(sorts::MISFITS[sort]);
    let (mut image, before) = (chain.start.clone(), answers.clone());
    let Some(made) = port::run(&mut image, &calls, &mut answers) else {
        return true;
    };
    let good = made == run::MISFIT && image == chain.start && answers == before;
    if !good {
        let (calls, answers) = (calls.len(), answers.len());
        println!("{calls} words of calls, {answers} of answers: made {made}, or something written");
    }
    good
}

/// Prints a list of calls from its image.
fn print(start: &[u64], calls: &[Call]) {
    let first = calls.first().copied().unwrap_or_default();
    report::case(&Case {
        kind: Kind::Chain,
        image: start.to_vec(),
        call: first,
        chained: false,
    });
    for call in calls {
        let Call {
            operation,
            cpu,
            time,
            context,
        } = call;
        println!("  call {operation} {cpu} {time} {context}");
    }
}
