//! Compares the port with the kernel and with the table, case by case.

use crate::{
    ask::Ask,
    expected::{Contradiction, Expected, expected},
    generate::{Case, Groups, Stream},
    plain, port, report,
    runs::Chain,
    sums::Sums,
    tally::Tally,
};
use image::{Answer, Call, Group};

/// Single calls and short chains. True if no difference was found.
pub fn run(seed: u64, count: u64) -> bool {
    all(Stream::new(seed), seed, count)
}

/// Long chains only.
pub fn chain(seed: u64, calls: u64) -> bool {
    all(Stream::chains(seed), seed, calls)
}

/// Machines with due timers that cannot be read.
pub fn timers(seed: u64, count: u64) -> bool {
    all(Stream::timers(seed), seed, count)
}

/// Decisions by rules that are seldom met otherwise.
pub fn rules(seed: u64, count: u64) -> bool {
    all(Stream::rules(seed), seed, count)
}

/// Remainders that are carried, in cases of all kinds, with timers that cannot be read or are
/// superseded, and by rules that are seldom met.
pub fn remainders(seed: u64, count: u64) -> bool {
    all(Stream::new(seed).carrying(), seed, count / 2)
        && all(Stream::timers(seed).carrying(), seed, count / 4)
        && all(Stream::rules(seed).carrying(), seed, count / 4)
}

/// Long chains in which each call finds the remainders that the last one left.
pub fn carried(seed: u64, calls: u64) -> bool {
    all(Stream::chains(seed).carrying(), seed, calls)
}

/// An edited kernel is no oracle.
pub fn unedited() {
    #[cfg(feature = "oracle")]
    assert_eq!((kernel::EDITED, changed::EDITED), ("", ""));
}

fn all(mut stream: Stream, seed: u64, count: u64) -> bool {
    unedited();
    let name = stream.name();
    let mut tally = Tally::default();
    let mut sums = Sums::default();
    let mut chain = Chain::default();
    // Without the kernel and without a port no call is made.
    let summed = stream.carries() && (port::THERE || cfg!(feature = "oracle"));
    for number in 0..count {
        let case = stream.next();
        let Some((answer, after)) = one(&case) else {
            println!("case {number} of seed {seed}{name}");
            return false;
        };
        if summed && !sums.hold(&case, &answer, &after) {
            report::case(&case);
            println!("case {number} of seed {seed}{name}");
            println!("ticks and remainder are not the time that has passed");
            return false;
        }
        if !chain.goes_on(&case.image, &case.call, &answer, &after) {
            println!("case {number} of seed {seed}{name}: the calls before it");
            return false;
        }
        tally.call(&case, &answer);
        stream.answered(&after);
    }
    if !chain.holds() {
        println!("case {count} of seed {seed}{name}: the calls before it");
        return false;
    }
    println!("{count} cases of seed {seed}{name}, no difference");
    tally.print_calls();
    if summed {
        sums.print();
    }
    true
}

/// Groups, on images of every kind and in short chains.
pub fn groups(seed: u64, count: u64) -> bool {
    unedited();
    let mut groups = Groups::new(seed);
    let mut tally = Tally::default();
    for number in 0..count {
        let case = groups.next();
        let Some((answer, mut after)) = one(&case) else {
            println!("group {number} of seed {seed}");
            return false;
        };
        tally.group(&case, &answer);
        if number % 2 == 0 {
            switch(&mut after, &case.call);
        }
        groups.answered(&after);
    }
    println!("{count} groups of seed {seed}, no difference");
    tally.print_groups();
    true
}

/// Between two groups of a chain a switch may serve those that were woken.
fn switch(image: &mut Vec<u64>, group: &Group) {
    let call = Call {
        operation: 2,
        cpu: group.cpu,
        time: group.time,
        context: 0,
    };
    if let Ok(Expected::Known(_, after)) = expected(image, &call) {
        *image = after;
    }
}

/// What the kernel answers and leaves, or the port where the kernel is not there; nothing if table
/// and kernel disagree.
pub fn called(image: &[u64], call: &Call) -> Option<(Answer, Vec<u64>)> {
    match expected(image, call) {
        Ok(Expected::Known(answer, after)) => Some((answer, after)),
        Ok(Expected::Passes) => {
            let mut after = image.to_vec();
            let got = port::call(&mut after, call);
            Some(unjudged(image, got, &after))
        }
        Err(Contradiction(text)) => {
            println!("{}: {text}", call.text());
            None
        }
    }
}

/// Answer and image after, or nothing if there was a difference.
pub fn one<A: Ask>(case: &Case<A>) -> Option<(Answer, Vec<u64>)> {
    let want = match expected(&case.image, &case.call) {
        Ok(want) => want,
        Err(Contradiction(text)) => {
            report::case(case);
            println!("{text}");
            return None;
        }
    };
    let mut got_image = case.image.clone();
    let got = case.call.port(&mut got_image);
    let (answer, after) = match want {
        Expected::Known(answer, after) => (answer, after),
        Expected::Passes => unjudged(&case.image, got, &got_image),
    };
    if let Some(got) = got
        && report::differences(case, (&answer, &after), (&got, &got_image))
    {
        return None;
    }
    plain::also(case, &answer, &after)?;
    Some((answer, after))
}

/// Without the kernel, an accepted call's answer is the port's own, and no room is believed.
pub fn unjudged(image: &[u64], got: Option<Answer>, got_image: &[u64]) -> (Answer, Vec<u64>) {
    match got {
        None => (Answer::default(), image.to_vec()),
        Some(Answer { refusal: 9, .. }) => (Answer::refused(9), image.to_vec()),
        Some(answer) => (
            Answer {
                refusal: 0,
                ..answer
            },
            got_image.to_vec(),
        ),
    }
}
