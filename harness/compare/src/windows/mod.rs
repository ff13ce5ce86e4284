//! Shares over the last 256 decisions (document 02, No. 11): calls in a lent window, and sums over
//! it, on images of every kind. The call itself is the kernel's, the window an own one.

mod queries;
mod sorts;
#[cfg(all(test, feature = "oracle"))]
mod tests;

use crate::{
    generate::{Case, Kind, Stream, rng::Rng, windows as generate},
    met::Met,
    port, report,
    run::{called, one, unedited},
};
use image::{
    Call, View, check, decision,
    window::{self, Called, ROOM, Record},
};

/// Of so many cases each sort must be met.
const ENOUGH: u64 = 4_000;
/// Calls in a row from an empty window: more than it has room for.
const ROW: u64 = 300;

/// The window of one CPU.
struct Lent {
    words: Vec<u64>,
    sort: usize,
    /// All accepted decisions since it was empty; none where it was not.
    log: Option<Vec<Record>>,
}

impl Lent {
    fn new(rng: &mut Rng, sort: usize, contexts: u64) -> Self {
        Self {
            words: generate::window(rng, sort, contexts),
            sort,
            log: (sort == 0).then(Vec::new),
        }
    }
    /// Of any sort, for a machine that the image may be of.
    fn any(rng: &mut Rng, image: &[u64]) -> Self {
        let contexts = image.get(1).copied().unwrap_or(1).clamp(1, 64);
        let sort = rng.below(generate::SORTS.len());
        Self::new(rng, sort, contexts)
    }
    /// The records are the last of the log.
    fn logged(&self) -> bool {
        let Some(log) = &self.log else { return true };
        let last = log.len().saturating_sub(ROOM);
        window::records(&self.words) == &log[last..]
    }
}

/// For a list: what a call in a window answers and leaves.
pub fn answered(image: &[u64], words: &[u64], call: &Call) -> Called {
    let (answer, after) = called(image, call).expect("table and kernel disagree");
    window::called(image, words, call, (&answer, &after))
}

pub fn windows(seed: u64, count: u64) -> bool {
    let mut met = Met::of(&sorts::names());
    let each = count / 4;
    let streams = [
        Stream::new(seed),
        Stream::timers(seed).carrying(),
        Stream::rules(seed),
        Stream::chains(seed),
    ];
    let good = streams
        .into_iter()
        .all(|stream| all(stream, seed, each, &mut met));
    if good {
        println!(
            "{} calls in windows of seed {seed}, no difference",
            each * 4
        );
    }
    good && met.hold(each * 4, ENOUGH)
}

fn all(mut stream: Stream, seed: u64, count: u64, met: &mut Met) -> bool {
    unedited();
    let mut rng = Rng::new(!seed);
    let mut lent: Vec<Lent> = Vec::new();
    for number in 0..count {
        let case = stream.next();
        let at = (case.call.cpu % 4) as usize;
        if !case.chained {
            lent = (0..4).map(|_| Lent::any(&mut rng, &case.image)).collect();
        } else if rng.once_in(match window::refusal(&lent[at].words, case.image[1]) {
            0 => 40,
            _ => 2,
        }) {
            lent[at] = Lent::any(&mut rng, &case.image);
        }
        let left = step(&case, &mut lent[at], &mut rng, met);
        let good = left.is_some() && (number % 800 != 0 || row(&case, &mut rng, met));
        let Some(left) = left.filter(|_| good) else {
            println!("call in a window {number} of seed {seed}{}", stream.name());
            return false;
        };
        stream.answered(&left);
    }
    true
}

/// The image that the call leaves, or nothing if there was a difference.
fn step(case: &Case, lent: &mut Lent, rng: &mut Rng, met: &mut Met) -> Option<Vec<u64>> {
    let (answer, after) = one(case)?;
    let own = (&answer, &after[..]);
    let want = window::called(&case.image, &lent.words, &case.call, own);
    held(case, lent, &want)?;
    sorts::note(met, case, lent.sort, &lent.words, answer.refusal);
    let (answer, image, words) = want;
    if answer.refusal == 0 && decision::is_made(View(&case.image), &case.call) {
        let added = window::record(View(&case.image), &case.call);
        lent.log.iter_mut().for_each(|log| log.push(added));
    }
    lent.words = words;
    if !lent.logged() {
        report::case(case);
        println!("the window does not hold the last decisions");
        return None;
    }
    let over = lent.log.as_ref().is_some_and(|log| log.len() > ROOM);
    met.note_if(over, sorts::LONG);
    queries::hold(&lent.words, &image, rng, met)?;
    Some(image)
}

/// The port makes the call in a copy of the window.
fn held(case: &Case, lent: &Lent, (answer, after, words): &Called) -> Option<()> {
    let (mut image, mut window) = (case.image.clone(), lent.words.clone());
    let Some(got) = port::window::call(&mut image, &mut window, &case.call) else {
        return Some(());
    };
    let differs = report::differences(case, (answer, after), (&got, &image));
    if !differs && window == *words {
        return Some(());
    }
    if !differs {
        report::case(case);
    }
    println!("in {}", generate::SORTS[lent.sort]);
    let pairs = words.iter().zip(&window).enumerate();
    for (index, (want, got)) in pairs.filter(|(_, (want, got))| want != got) {
        println!("  {}: expected {want}, got {got}", window::name(index));
    }
    None
}

/// Switches and ticks in a row on one CPU, from an empty window that nobody else writes.
fn row(case: &Case, rng: &mut Rng, met: &mut Met) -> bool {
    let mut call = Call {
        operation: 2,
        ..case.call
    };
    if check::refusal(&case.image, &call) != 0 {
        return true;
    }
    let mut lent = Lent::new(rng, 0, case.image[1]);
    let mut image = case.image.clone();
    for _ in 0..ROW {
        let next = Case {
            kind: Kind::Chain,
            image,
            call,
            chained: true,
        };
        let Some(left) = step(&next, &mut lent, rng, met) else {
            return false;
        };
        image = left;
        call.operation = rng.pick(&[1, 2, 2, 2, 2, 2, 2, 2]);
        call.time += rng.pick(&[0, 1_000_000, 2_250_000, 6_750_000]);
    }
    true
}
