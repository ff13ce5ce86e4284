//! Sums over the records of a window.

use crate::{generate::rng::Rng, met::Met, port};
use image::{Answer, MAX_CONTEXTS, window};

const ACCEPTED: &str = "sums of all contexts, which add up";
const EMPTY: &str = "sums over no record";
const FEWER: &str = "a sum for fewer contexts, refused";
const LENGTH: &str = "a sum refused with 1";
const RECORD: &str = "a sum refused with 3";
pub const NAMES: [&str; 5] = [ACCEPTED, EMPTY, FEWER, LENGTH, RECORD];

/// Every sum for the N of an image, which may be damaged, and some for another one.
pub fn hold(words: &[u64], image: &[u64], rng: &mut Rng, met: &mut Met) -> Option<()> {
    let contexts = image.get(1).copied().unwrap_or(0).min(MAX_CONTEXTS);
    let refusal = window::refusal(words, contexts);
    match refusal {
        0 => {
            adds_up(words, contexts)?;
            met.note(ACCEPTED);
            met.note_if(words[0] == 0, EMPTY);
        }
        1 => met.note(LENGTH),
        _ => met.note(RECORD),
    }
    let other = match rng.below(4) {
        0 => rng.pick(&[0, 1, 64, 65, 1 << 32, u64::MAX]),
        1 => contexts.wrapping_add(1),
        _ => contexts.saturating_sub(1),
    };
    let of = rng.pick(&[0, other.wrapping_sub(1), other, u64::MAX]);
    met.note_if(
        refusal == 0 && other < contexts && window::refusal(words, other) == 3,
        FEWER,
    );
    same(words, contexts, of)?;
    same(words, other, of)?;
    same_of_all(words, contexts)?;
    same_of_all(words, other)
}

/// The shares of contexts 0 to N - 1 are the port's and add up to the whole.
fn adds_up(words: &[u64], contexts: u64) -> Option<()> {
    let of = |context| window::share(words, contexts, context).result;
    let sum: u64 = (0..contexts).map(of).sum();
    for context in 0..=contexts {
        same(words, contexts, context)?;
    }
    match window::share_of_all(words, contexts).result == sum {
        true => Some(()),
        false => {
            println!("the own shares do not add up to the whole");
            None
        }
    }
}

fn same(words: &[u64], contexts: u64, context: u64) -> Option<()> {
    let want = window::share(words, contexts, context);
    let got = port::window::share(words, contexts, context);
    judged(want, got, || {
        format!("the share of {context} of {contexts} contexts")
    })
}

fn same_of_all(words: &[u64], contexts: u64) -> Option<()> {
    let want = window::share_of_all(words, contexts);
    let got = port::window::share_of_all(words, contexts);
    judged(want, got, || {
        format!("the share of all of {contexts} contexts")
    })
}

fn judged(want: Answer, got: Option<Answer>, name: impl Fn() -> String) -> Option<()> {
    match got {
        Some(got) if got != want => {
            println!("{}: expected {want:?}, got {got:?}", name());
            None
        }
        _ => Some(()),
    }
}
