//! A run of calls: an own reading. Each call is on the image that the one before it left; rows 1 to
//! 4 are judged again only where a call may have raised a number over its range.

use crate::{Answer, Call, NUMBER_MAX, View, check, ranges};

/// Words of a call, and of an answer.
pub const WORDS: usize = 4;
/// Of lengths that do not fit.
pub const MISFIT: u64 = u64::MAX;

/// The calls in words, one after the other.
pub fn words(calls: &[Call]) -> Vec<u64> {
    let words = |call: &Call| [call.operation, call.cpu, call.time, call.context];
    calls.iter().flat_map(words).collect()
}

fn call_of(words: &[u64]) -> Call {
    Call {
        operation: words[0],
        cpu: words[1],
        time: words[2],
        context: words[3],
    }
}

/// How many calls were made. `made` makes a call on an image that rows 1 to 4 let pass.
pub fn run(
    image: &mut [u64],
    calls: &[u64],
    answers: &mut [u64],
    mut made: impl FnMut(&mut [u64], &Call) -> Answer,
) -> u64 {
    if calls.len() % WORDS != 0 || answers.len() != calls.len() {
        return MISFIT;
    }
    let mut passes = false;
    let places = answers.chunks_exact_mut(WORDS);
    for (call, place) in calls.chunks_exact(WORDS).zip(places) {
        let call = call_of(call);
        let refusal = match passes {
            true if call.time > NUMBER_MAX => 3,
            true => 0,
            false => check::image_refusal(image, call.time),
        };
        let answer = match refusal {
            0 => made(image, &call),
            _ => Answer::refused(refusal),
        };
        passes = passes && refusal != 0 || refusal == 0 && ranges::hold(View(image));
        place.copy_from_slice(&[answer.refusal, answer.result, answer.interrupt, answer.rule]);
    }
    (calls.len() / WORDS) as u64
}

/// The answers in words.
pub fn answers(words: &[u64]) -> Vec<Answer> {
    let answer = |words: &[u64]| Answer {
        refusal: words[0],
        result: words[1],
        interrupt: words[2],
        rule: words[3],
    };
    words.chunks_exact(WORDS).map(answer).collect()
}

#[cfg(test)]
mod tests;
