//! Writer against rival beside as many plain switches as the game makes calls.

use super::{
    Bench, Built,
    images::{self, CALL, Size},
    whole_call,
};
use crate::port;
use image::{
    Answer, View, block as b,
    rival::{Game, Play},
};
use std::{cell::Cell, hint::black_box};

const ROUNDS: u64 = 6;
/// The sequences of choices, each of which has a last round.
const SEQUENCES: u64 = 3u64.pow(ROUNDS as u32);

thread_local! {
    /// The game that is timed.
    static PLAY: Cell<Play> = Cell::default();
}

fn game(image: &mut [u64], _: &mut Built) {
    black_box(port::rival(image, &PLAY.get()));
}

/// The game by single calls of the port, and how many it makes.
fn by_calls(start: &[u64], play: &Play) -> (Game, u64) {
    let mut calls = 0;
    let game = Game::of(start, play, |image, call| {
        calls += 1;
        let mut after = image.to_vec();
        let answer = port::call(&mut after, &call).unwrap_or(Answer::refused(u64::MAX));
        (answer, after)
    });
    (game, calls)
}

fn row(parties: &str, entries: usize, start: Vec<u64>, play: Play) -> bool {
    let (expected, calls) = by_calls(&start, &play);
    if port::rival(&mut start.clone(), &play) != Some(expected) {
        println!("the game is not that of its calls: use rival");
        return false;
    }
    PLAY.set(play);
    let [switch, game] = Bench::new(start).least([whole_call, game]);
    let [as_many, last] = [calls, SEQUENCES].map(|count| switch * count as f64);
    println!("| {parties} | {entries} | {calls} | {game:.0} | {as_many:.0} | {last:.0} |");
    true
}

/// Prints rows for some numbers of entries, on 4 CPUs with 64 contexts.
pub fn table() -> bool {
    println!(
        "\n| 4 CPUs, 64 contexts, 6 rounds | entries | calls | the game | as many switches | {SEQUENCES} switches |"
    );
    println!("|---|---|---|---|---|---|");
    [1, 8, 32, 58].into_iter().all(|entries| {
        let size = Size {
            cpus: 4,
            contexts: 64,
            entries,
        };
        let start = images::last_wins(&size).image();
        let holder = View(&start).block(0, b::SCHED_CTXT);
        let last = holder + entries as u64;
        let play = |writer, rival| Play {
            cpu: CALL.cpu,
            time: CALL.time,
            writer,
            rival,
            rounds: ROUNDS,
        };
        row(
            "the writer in charge",
            entries,
            start.clone(),
            play(holder, last),
        ) && row("the rival in charge", entries, start, play(last, holder))
    })
}
