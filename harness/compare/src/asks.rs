//! Ask first, then commit (document 02, No. 9): the port held to the kernel's switch, on images of
//! every kind.

use crate::{
    expected::{Expected, expected},
    generate::{Case, Stream, rng::Rng},
    port, report,
    run::{one, unedited},
};
use image::{
    Answer, Call,
    asked::{Asked, switch},
};

/// What the kernel's switch answers and leaves.
fn switched(image: &[u64], cpu: u64, time: u64) -> Option<(Answer, Vec<u64>)> {
    match expected(image, &switch(cpu, time)) {
        Ok(Expected::Known(answer, after)) => Some((answer, after)),
        _ => None,
    }
}

/// For a list: the five numbers.
pub fn asked(image: &[u64], cpu: u64, time: u64) -> Asked {
    let (answer, after) = switched(image, cpu, time).expect("the kernel is not there");
    Asked::of(&answer, &after, cpu)
}

/// For a list: a commit.
pub fn committed(image: &[u64], cpu: u64, time: u64, reply: Asked) -> (Answer, Vec<u64>) {
    let (answer, after) = switched(image, cpu, time).expect("the kernel is not there");
    let now = Asked::of(&answer, &after, cpu);
    reply.commit(image, now, &answer, &after)
}

/// The replies that a commit is handed; each must be met often.
const SORTS: [&str; 9] = [
    "as asked",
    "another refusal",
    "another result",
    "another context in charge",
    "another current context",
    "another V",
    "in charge and current exchanged",
    "asked at another time or on another image",
    "of a refused switch, and all 0",
];

#[derive(Default)]
struct Tally {
    asked: u64,
    refused: u64,
    /// By sort: commits that are accepted, refused with 13, refused with the switch's own number.
    commits: [[u64; 3]; SORTS.len()],
}

impl Tally {
    fn print(&self) {
        println!(
            "asked {}, refused {}; commits {:>17} {:>8} {:>8}",
            self.asked, self.refused, "accepted", "13", "its own"
        );
        for (name, [accepted, differs, own]) in SORTS.iter().zip(self.commits) {
            println!("{name:42} {accepted:8} {differs:8} {own:8}");
        }
    }
}

pub fn asks(seed: u64, count: u64) -> bool {
    unedited();
    let mut tally = Tally::default();
    let each = count / 4;
    let good = [
        Stream::new(seed),
        Stream::timers(seed).carrying(),
        Stream::rules(seed),
        Stream::chains(seed),
    ]
    .into_iter()
    .all(|stream| all(stream, seed, each, &mut tally));
    if good {
        println!("{} asked of seed {seed}, no difference", each * 4);
        tally.print();
    }
    good
}

fn all(mut stream: Stream, seed: u64, count: u64, tally: &mut Tally) -> bool {
    let mut rng = Rng::new(!seed);
    // The last reply: of another image and time.
    let mut last = Asked::default();
    for number in 0..count {
        let case = stream.next();
        let Some((_, after)) = one(&case) else {
            println!("case {number} of seed {seed}");
            return false;
        };
        let Call { cpu, time, .. } = case.call;
        if let Some(switched) = switched(&case.image, cpu, time) {
            let now = Asked::of(&switched.0, &switched.1, cpu);
            tally.asked += 1;
            tally.refused += u64::from(now.refusal != 0);
            let replies = replies(&mut rng, now, last);
            if !held(&case, now, &switched, &replies, tally) {
                println!("asked {number} of seed {seed}{}", stream.name());
                return false;
            }
            last = now;
        }
        stream.answered(&after);
    }
    true
}

/// A reply of each sort.
fn replies(rng: &mut Rng, now: Asked, last: Asked) -> [Asked; SORTS.len()] {
    let words = now.words();
    let other = |place: usize, word: u64| {
        let mut words = words;
        words[place] = word;
        Asked::from_words(words)
    };
    let near = |word: u64| word ^ 1;
    let exchanged = Asked {
        in_charge: now.current,
        current: now.in_charge,
        ..now
    };
    let refused = match rng.once_in(2) {
        true => Asked::default(),
        false => Asked {
            refusal: 1 + rng.below(9) as u64,
            ..Asked::default()
        },
    };
    [
        now,
        other(0, near(words[0])),
        other(1, 3 - words[1].min(3)),
        other(2, near(words[2])),
        other(3, near(words[3])),
        other(4, near(words[4])),
        exchanged,
        last,
        refused,
    ]
}

/// The port asks, twice, and commits each reply on a copy.
fn held(
    case: &Case,
    now: Asked,
    (answer, after): &(Answer, Vec<u64>),
    replies: &[Asked],
    tally: &mut Tally,
) -> bool {
    let Call { cpu, time, .. } = case.call;
    let again = [(); 2].map(|()| port::ask(&case.image, cpu, time));
    if again.iter().flatten().any(|got| *got != now) {
        report::case(case);
        println!("asked at {time} of CPU {cpu}: expected {now:?}, got {again:?}");
        return false;
    }
    for (sort, reply) in replies.iter().enumerate() {
        let (want, want_image) = reply.commit(&case.image, now, answer, after);
        tally.commits[sort][match want.refusal {
            0 => 0,
            13 => 1,
            _ => 2,
        }] += 1;
        let mut image = case.image.clone();
        let Some(got) = port::commit(&mut image, cpu, time, *reply) else {
            continue;
        };
        if report::differences(case, (&want, &want_image), (&got, &image)) {
            println!("commit at {time} of CPU {cpu}, {}: {reply:?}", SORTS[sort]);
            return false;
        }
    }
    true
}
