//! The game by the table of all sequences of choices, which says what the search has to find.

use super::{CHOICES, Choice, Game, Play, Position, Turn, round, turn};
use crate::{Answer, Call};

impl Game {
    /// The same by the table of all sequences of choices, each played and then folded from the
    /// end: of three sequences that differ in their last choice the writer has the best, the
    /// rival the worst. The image passes.
    pub fn by_table(
        image: &[u64],
        play: &Play,
        mut calls: impl FnMut(&[u64], Call) -> (Answer, Vec<u64>),
    ) -> Self {
        let sequences = 3_usize.pow(play.rounds as u32);
        let (start, mut path) = (Some((image.to_vec(), play.time)), Path::new());
        let played =
            (0..sequences).map(|number| sequence(&start, play, number, &mut path, &mut calls));
        let (mut won, turns): (Vec<bool>, Vec<Vec<Turn>>) = played.unzip();
        let mut firsts = won.clone();
        for depth in (0..play.rounds as usize).rev() {
            let step = sequences / won.len() * 3;
            firsts.clone_from(&won);
            won = won
                .chunks(3)
                .enumerate()
                .map(|(group, outcomes)| match turns[group * step].get(depth) {
                    Some(Turn::Rival) => outcomes.iter().all(|won| *won),
                    _ => outcomes.iter().any(|won| *won),
                })
                .collect();
        }
        let chooses = won[0] && turn(image, play) == Turn::Writer;
        let first = firsts.iter().position(|won| *won).filter(|_| chooses);
        Self {
            refusal: 0,
            forced: won[0].into(),
            choice: first.map_or(0, |first| first as u64 + 1),
        }
    }
}

/// The choices of the last sequence, and where each led: what the next one has in common with it
/// is not played again.
type Path = Vec<(Choice, Position)>;

/// Plays the choices that are the digits of the number, the first one highest: whether the writer
/// is in charge at the end, and whose turn each round was, up to a refused call.
fn sequence(
    start: &Position,
    play: &Play,
    number: usize,
    path: &mut Path,
    calls: &mut impl FnMut(&[u64], Call) -> (Answer, Vec<u64>),
) -> (bool, Vec<Turn>) {
    let mut turns = Vec::new();
    for depth in 0..play.rounds as usize {
        let position = depth.checked_sub(1).map_or(start, |last| &path[last].1);
        let Some((image, begun)) = position else {
            break;
        };
        let turn = turn(image, play);
        turns.push(turn);
        let later = play.rounds as u32 - 1 - depth as u32;
        let choice = match turn {
            Turn::Neither => Choice::GoOn,
            _ => CHOICES[number / 3_usize.pow(later) % 3],
        };
        if path.get(depth).is_none_or(|(made, _)| *made != choice) {
            let next = round(image, *begun, play, choice, calls);
            path.truncate(depth);
            path.push((choice, next));
        }
    }
    let end = path.last().and_then(|(_, position)| position.as_ref());
    let won = end.is_some_and(|(image, _)| turn(image, play) == Turn::Writer);
    (won, turns)
}
