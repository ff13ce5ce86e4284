//! Chooses a short list of cases that goes through every branch, for the recorded
//! list and for the small one.

use crate::{
    branches::{self, Seen},
    generate::Stream,
    recorded::Recorded,
};

pub struct Limits {
    /// The most CPUs and contexts; without it also images whose length does not follow
    /// from their sizes are taken.
    pub sizes: Option<(u64, u64)>,
    /// How many words are not 0, before the call.
    pub words: std::ops::RangeInclusive<usize>,
    /// How often each feature is wanted, if there are such cases.
    pub times: u32,
    /// How often each refusal is wanted.
    pub refused: u32,
    pub cases: usize,
}

struct Chosen {
    case: Recorded,
    features: Vec<usize>,
    cost: usize,
}

/// Takes from `tries` cases, each time the one with most that is new for its size.
pub fn choose(mut stream: Stream, tries: u64, limits: &Limits) -> Vec<Recorded> {
    let mut from = Vec::new();
    let mut seen_of = Vec::new();
    for _ in 0..tries {
        let seen = branches::next(&mut stream);
        let words = seen.case.image.iter().filter(|word| **word != 0).count();
        let sized = limits.sizes.is_none_or(|(cpus, contexts)| {
            let image = &seen.case.image;
            !matches!(seen.answer.refusal, 1 | 2) && image[0] <= cpus && image[1] <= contexts
        });
        if sized && limits.words.contains(&words) {
            let chosen = features(seen, words);
            for feature in &chosen.features {
                seen_of.resize(seen_of.len().max(feature + 1), 0_u32);
                seen_of[*feature] += 1;
            }
            // Enough of one feature's cases are kept to choose among them.
            if chosen.features.iter().any(|feature| seen_of[*feature] < 60) {
                from.push(chosen);
            }
        }
    }
    greedy(from, seen_of.len(), limits)
}

/// Features below the first are refusals, below the second operations with results,
/// the rest branches.
const REFUSALS: usize = 16;
const ANSWERS: usize = 100;

fn features(seen: Seen, words: usize) -> Chosen {
    let call = seen.case.call;
    let operation = call.operation.min(8) as usize;
    let answer = seen.answer;
    let features = if answer.refusal != 0 {
        vec![answer.refusal as usize]
    } else {
        let answered = REFUSALS + operation * 8 + (answer.result * 2 + answer.interrupt) as usize;
        let reached = branches::branches(&seen.reached);
        let through = (0..reached.len())
            .filter(|n| reached[*n])
            .map(|n| ANSWERS + n);
        through.chain([answered]).collect()
    };
    Chosen {
        case: Recorded {
            call,
            image: seen.case.image,
            answer,
            after: seen.after,
        },
        features,
        cost: 40 + words,
    }
}

fn greedy(mut from: Vec<Chosen>, features: usize, limits: &Limits) -> Vec<Recorded> {
    let mut taken: Vec<Recorded> = Vec::new();
    let mut covered = vec![0_u32; features];
    let mut times = 1;
    while taken.len() < limits.cases && !from.is_empty() {
        let gain = |case: &Chosen| {
            let wanted = |f: usize| {
                if f < REFUSALS {
                    times.min(limits.refused)
                } else {
                    times
                }
            };
            let new = case
                .features
                .iter()
                .filter(|f| covered[**f] < wanted(**f))
                .count();
            new * 1_000_000 / case.cost
        };
        let best = (0..from.len()).max_by_key(|n| gain(&from[*n])).unwrap();
        if gain(&from[best]) == 0 {
            times += 1;
            if times > limits.times {
                break;
            }
            continue;
        }
        let case = from.swap_remove(best);
        for feature in &case.features {
            covered[*feature] += 1;
        }
        taken.push(case.case);
    }
    taken.sort_by_key(|case| (case.answer.refusal, case.call.operation, case.answer.result));
    taken
}
