//! The calls of `crates/recorded`: recorded and generated ones.

use crate::{
    expected::{Expected, expected},
    generate::{Case, Groups, Stream},
    list::{case, group_case, line, nonzero, total_case},
    recorded,
};
use image::{
    Answer, Call, MAX_CONTEXTS, MAX_CPUS, OPERATIONS, RULES, TotalWeight, View, check, decision,
    length, newest, remainder,
};

/// How many words of a generated image may be other than 0: the list stays short.
const WORDS: usize = 160;

/// A program's buffer holds the longest image, and one word more.
fn fits(image: &[u64]) -> bool {
    image.len() <= length(MAX_CPUS as usize, MAX_CONTEXTS as usize) + 1
}

fn short(image: &[u64]) -> bool {
    fits(image) && nonzero(image).len() <= WORDS
}

/// Prints the calls of a recorded list, and `each` generated ones of every operation, of
/// groups, of decisions with an unreadable due timer and of those that remove one; a twentieth
/// as many of each rule; sums of weights. These carry no remainder; decisions that do are last.
pub fn calls(list: &str, seed: u64, each: u64) -> bool {
    let mut number = 0;
    let mut print = |text: String| {
        number += 1;
        println!("# case {number}\n{text}");
    };
    for recorded in recorded::words(list) {
        if fits(&recorded.image) {
            print(line(case(&recorded.call, &recorded.image)));
        }
    }
    let mut left = [each; OPERATIONS.len()];
    take(Stream::new(seed).without_remainders(), |next, _| {
        let wanted = left.get_mut(next.call.operation.wrapping_sub(1) as usize);
        if let Some(left) = wanted.filter(|left| short(&next.image) && **left > 0) {
            *left -= 1;
            print(line(case(&next.call, &next.image)));
        }
        left.iter().any(|left| *left > 0)
    });
    let mut groups = Groups::new(seed).without_remainders();
    let mut left = each;
    while left > 0 {
        let next = groups.next();
        if let Ok(Expected::Known(_, after)) = expected(&next.image, &next.call) {
            groups.answered(&after);
        }
        if short(&next.image) {
            left -= 1;
            print(format!("g {}", line(group_case(&next.call, &next.image))));
        }
    }
    let timers = || Stream::timers(seed).without_remainders();
    decisions(timers(), each, decision::unreadable_due, &mut print);
    decisions(timers(), each, newest::supersedes, &mut print);
    let mut left = [each / 20; RULES.len()];
    left[0] = 0;
    take(Stream::rules(seed).without_remainders(), |next, answer| {
        let left_of = &mut left[answer.rule as usize];
        if short(&next.image) && *left_of > 0 {
            *left_of -= 1;
            print(line(case(&next.call, &next.image)));
        }
        left.iter().any(|left| *left > 0)
    });
    let mut left = each;
    take(Stream::new(seed).without_remainders(), |next, _| {
        if short(&next.image) {
            left -= 1;
            let call = TotalWeight { cpu: next.call.cpu };
            print(format!("w {}", line(total_case(&call, &next.image))));
        }
        left > 0
    });
    let carrying = Stream::rules(seed).carrying();
    decisions(carrying, each / 2, one_more, &mut print);
    decisions(
        Stream::chains(seed).carrying(),
        each / 2,
        carried,
        &mut print,
    );
    true
}

fn carried(image: View, call: &Call) -> bool {
    decision::is_made(image, call) && remainder::carried(image, call) != 0
}

fn one_more(image: View, call: &Call) -> bool {
    remainder::one_more(image, call).is_some()
}

/// So many decisions of this sort, of short images.
fn decisions(
    stream: Stream,
    each: u64,
    which: fn(View, &Call) -> bool,
    print: &mut impl FnMut(String),
) {
    let mut left = each;
    take(stream, |next, _| {
        let (call, image) = (&next.call, &next.image);
        let passes = || check::refusal(image, call) == 0;
        if short(image) && passes() && which(View(image), call) {
            left -= 1;
            print(line(case(call, image)));
        }
        left > 0
    });
}

/// Goes through the cases of a stream and their answers for as long as more are wanted.
fn take(mut stream: Stream, mut wanted: impl FnMut(&Case, &Answer) -> bool) {
    loop {
        let next = stream.next();
        let Ok(Expected::Known(answer, after)) = expected(&next.image, &next.call) else {
            panic!("the kernel is not there, or table and kernel disagree: use run");
        };
        stream.answered(&after);
        if !wanted(&next, &answer) {
            return;
        }
    }
}
