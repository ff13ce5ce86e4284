//! What games must meet.

use super::Calls;
use crate::{generate::rival::STARTS, met::Met};
use image::{
    View,
    rival::{Game, Play, Turn, turn},
};

const ROUNDS: [&str; 6] = [
    "1 round", "2 rounds", "3 rounds", "4 rounds", "5 rounds", "6 rounds",
];
const FORCED: [&str; 5] = [
    "forced by going on",
    "forced by a yield",
    "forced by a block",
    "forced with the rival first",
    "forced with neither first",
];
const LOST: [&str; 3] = [
    "not forced with the writer first",
    "not forced with the rival first",
    "not forced with neither first",
];
const CALLS: [&str; 4] = [
    "a refused switch",
    "a refused block",
    "a block that returns false",
    "forced beside a refused branch",
];
const FIVE: [&str; 4] = [
    "5: no such CPU",
    "5: the writer",
    "5: the rival",
    "5 where 14 would be given",
];
const FOURTEEN: [&str; 3] = [
    "14: no rounds",
    "14: over 6 rounds",
    "14: writer and rival the same",
];
const REFUSED: &str = "refused with 1 to 4";

pub fn names() -> Vec<&'static str> {
    [
        &STARTS[..],
        &ROUNDS,
        &FORCED,
        &LOST,
        &CALLS,
        &FIVE,
        &FOURTEEN,
        &[REFUSED],
    ]
    .concat()
}

pub fn note(met: &mut Met, image: &[u64], play: &Play, game: Game, calls: &Calls) {
    let same = play.writer == play.rival;
    match game.refusal {
        0 => accepted(met, image, play, game, calls),
        5 => {
            met.note(five(View(image), play));
            met.note_if(same || !(1..=6).contains(&play.rounds), FIVE[3]);
        }
        14 => met.note(match play.rounds {
            0 => FOURTEEN[0],
            7.. => FOURTEEN[1],
            _ => FOURTEEN[2],
        }),
        _ => met.note(REFUSED),
    }
}

fn accepted(met: &mut Met, image: &[u64], play: &Play, game: Game, calls: &Calls) {
    met.note(ROUNDS[play.rounds as usize - 1]);
    let first = match turn(image, play) {
        Turn::Writer => 0,
        Turn::Rival => 1,
        Turn::Neither => 2,
    };
    met.note(match game.forced {
        0 => LOST[first],
        _ if first == 0 => FORCED[game.choice as usize - 1],
        _ => FORCED[first + 2],
    });
    let refused = |of: u64| {
        let mut answers = calls.answers();
        answers.any(|(operation, answer)| operation == of && answer.refusal != 0)
    };
    met.note_if(refused(2), CALLS[0]);
    met.note_if(refused(6), CALLS[1]);
    let mut answers = calls.answers();
    let fails = answers
        .any(|(operation, answer)| operation == 6 && answer.refusal == 0 && answer.result == 0);
    met.note_if(fails, CALLS[2]);
    met.note_if((refused(2) || refused(6)) && game.forced == 1, CALLS[3]);
}

/// The first reason for 5.
fn five(image: View, play: &Play) -> &'static str {
    let live = |x: u64| x < image.contexts() as u64 && !image.gone(x as usize);
    if play.cpu >= image.cpus() as u64 || !image.present(play.cpu as usize) {
        FIVE[0]
    } else if !live(play.writer) {
        FIVE[1]
    } else {
        assert!(!live(play.rival));
        FIVE[2]
    }
}
