//! Writer against rival (document 02, No. 13): the port held to the same search over the kernel's
//! own calls, and that to the table of all sequences of choices.

mod sorts;
#[cfg(all(test, feature = "oracle"))]
mod tests;

use crate::{
    generate::{Case, Stream, rival as generate, rng::Rng},
    met::Met,
    port, report,
    run::{called, unedited},
};
use image::{
    Answer, Call, check,
    rival::{Game, Play},
};
use std::collections::HashMap;

/// Of so many games each sort must be met.
const ENOUGH: u64 = 1_500;

/// The kernel's calls of one game, each made once.
#[derive(Default)]
struct Calls {
    /// By the words of the image and of the call.
    made: HashMap<Vec<u64>, (Answer, Vec<u64>)>,
    /// Table and kernel disagree on one of them.
    failed: bool,
}

impl Calls {
    fn call(&mut self, image: &[u64], call: Call) -> (Answer, Vec<u64>) {
        let words = [call.operation, call.cpu, call.time, call.context];
        let key = [image, &words].concat();
        if let Some(made) = self.made.get(&key) {
            return made.clone();
        }
        let answered = called(image, &call).unwrap_or_else(|| {
            self.failed = true;
            (Answer::refused(u64::MAX), image.to_vec())
        });
        self.made.insert(key, answered.clone());
        answered
    }
    fn answers(&self) -> impl Iterator<Item = (u64, &Answer)> {
        self.made.iter().map(|(key, (answer, _))| {
            let operation = key[key.len() - 4];
            (operation, answer)
        })
    }
}

/// The game by both ways, or nothing if they differ or if table and kernel do.
fn played(image: &[u64], play: &Play) -> Option<(Game, Calls)> {
    let mut calls = Calls::default();
    let game = Game::of(image, play, |image, call| calls.call(image, call));
    if game.refusal == 0 {
        let table = Game::by_table(image, play, |image, call| calls.call(image, call));
        if table != game {
            println!("the search gives {game:?}, the table {table:?}");
            return None;
        }
    }
    (!calls.failed).then_some((game, calls))
}

/// For a list: the three numbers.
pub fn game(image: &[u64], play: &Play) -> Option<Game> {
    played(image, play).map(|(game, _)| game)
}

pub fn rival(seed: u64, count: u64) -> bool {
    unedited();
    let mut met = Met::of(&sorts::names());
    let each = count / 3;
    let streams = [
        Stream::new(seed),
        Stream::timers(seed).carrying(),
        Stream::rules(seed),
    ];
    let good = streams
        .into_iter()
        .all(|stream| all(stream, seed, each, &mut met));
    if good {
        println!("{} games of seed {seed}, no difference", each * 3);
    }
    good && met.hold(each * 3, ENOUGH)
}

fn all(mut stream: Stream, seed: u64, count: u64, met: &mut Met) -> bool {
    let mut rng = Rng::new(!seed);
    for number in 0..count {
        let mut case = stream.next();
        stream.answered(&case.image.clone());
        let Call {
            cpu, time, context, ..
        } = case.call;
        let mut play = Play {
            cpu,
            time,
            writer: context,
            rival: 0,
            rounds: 2,
        };
        if check::image_refusal(&case.image, time) == 0 {
            let start = rng.pick(&[0, 0, 0, 0, 0, 1, 1, 1, 2, 3, 4]);
            met.note(generate::STARTS[start]);
            play = generate::play(&mut rng, &mut case.image, start, cpu, time);
        }
        if held(&case, &play, met).is_none() {
            println!("game {number} of seed {seed}{}: {play:?}", stream.name());
            return false;
        }
    }
    true
}

/// The port plays, and leaves the image as it is.
fn held(case: &Case, play: &Play, met: &mut Met) -> Option<()> {
    let (game, calls) = played(&case.image, play)?;
    sorts::note(met, &case.image, play, game, &calls);
    let mut image = case.image.clone();
    let got = port::rival(&mut image, play);
    if got.is_some_and(|got| got != game) || image != case.image {
        report::case(case);
        println!(
            "expected {game:?}, got {got:?}; image kept: {}",
            image == case.image
        );
        return None;
    }
    Some(())
}
