//! Writer against rival (document 02, No. 13): an own reading of the ticket, over any calls.

mod table;

use crate::{Answer, Call, View, asked::switch, block as b, check, context as c};

#[repr(C)]
#[derive(Clone, Copy, Debug, Default, PartialEq, Eq)]
pub struct Game {
    pub refusal: u64,
    /// Whether the writer can force itself into charge.
    pub forced: u64,
    /// 0 none, else that of `CHOICES`, from 1.
    pub choice: u64,
}

#[derive(Clone, Copy, Debug, Default, PartialEq, Eq)]
pub struct Play {
    pub cpu: u64,
    pub time: u64,
    pub writer: u64,
    pub rival: u64,
    pub rounds: u64,
}

#[derive(Clone, Copy, Debug, PartialEq, Eq)]
pub enum Choice {
    GoOn,
    Yield,
    Block,
}

/// In the order in which the writer's first winning one is told.
pub const CHOICES: [Choice; 3] = [Choice::GoOn, Choice::Yield, Choice::Block];

const WHOLE: u64 = 6_750_000;
const SHORT: u64 = 1_000_000;
const WAKE: u64 = 4_500_000;

/// 1 to 4, then 5 for CPU, writer and rival, then 14, or 0.
pub fn refusal(image: &[u64], play: &Play) -> u64 {
    let image_only = check::image_refusal(image, play.time);
    if image_only != 0 {
        return image_only;
    }
    let image = View(image);
    let here = play.cpu < image.cpus() as u64 && image.present(play.cpu as usize);
    let live = |context| context < image.contexts() as u64 && !image.gone(context as usize);
    if !here || !live(play.writer) || !live(play.rival) {
        return 5;
    }
    match (1..=6).contains(&play.rounds) && play.writer != play.rival {
        true => 0,
        false => 14,
    }
}

/// An image, and when the next round begins on it. A refused call leaves none: the writer has
/// lost.
pub type Position = Option<(Vec<u64>, u64)>;

/// Who is to choose in a round.
#[derive(Clone, Copy, Debug, PartialEq, Eq)]
pub enum Turn {
    Writer,
    Rival,
    /// Neither is in charge: the round is a go on.
    Neither,
}

pub fn in_charge(image: &[u64], play: &Play) -> u64 {
    View(image).block(play.cpu as usize, b::SCHED_CTXT)
}

pub fn turn(image: &[u64], play: &Play) -> Turn {
    match in_charge(image, play) {
        holder if holder == play.writer => Turn::Writer,
        holder if holder == play.rival => Turn::Rival,
        _ => Turn::Neither,
    }
}

/// One round from a position, by calls of the caller's.
pub fn round(
    image: &[u64],
    begun: u64,
    play: &Play,
    choice: Choice,
    calls: &mut impl FnMut(&[u64], Call) -> (Answer, Vec<u64>),
) -> Position {
    let mut made = |image: &[u64], call| {
        let (answer, after) = calls(image, call);
        (answer.refusal == 0).then_some(after)
    };
    let mut switched = |image: &[u64], time| {
        let after = made(image, switch(play.cpu, time))?;
        Some((after, time))
    };
    match choice {
        Choice::GoOn => switched(image, begun + WHOLE),
        Choice::Yield => switched(image, begun + SHORT),
        Choice::Block => {
            let holder = in_charge(image, play);
            let mut asleep = image.to_vec();
            let record = View(image).context_at(holder as usize);
            asleep[record + c::HAS_WAKE] = 1;
            asleep[record + c::WAKE] = begun + WAKE;
            let block = Call {
                operation: 6,
                cpu: play.cpu,
                time: begun,
                context: holder,
            };
            let blocked = made(&asleep, block)?;
            let after = made(&blocked, switch(play.cpu, begun + SHORT))?;
            Some((after, begun + SHORT))
        }
    }
}

/// Whether the writer can be in charge at the end, with so many rounds left.
fn forced(
    position: Position,
    play: &Play,
    left: u64,
    calls: &mut impl FnMut(&[u64], Call) -> (Answer, Vec<u64>),
) -> bool {
    let Some((image, begun)) = position else {
        return false;
    };
    let turn = turn(&image, play);
    if left == 0 {
        return turn == Turn::Writer;
    }
    let mut wins = |choice: &Choice| {
        let next = round(&image, begun, play, *choice, calls);
        forced(next, play, left - 1, calls)
    };
    match turn {
        Turn::Writer => CHOICES.iter().any(&mut wins),
        Turn::Rival => CHOICES.iter().all(&mut wins),
        Turn::Neither => wins(&Choice::GoOn),
    }
}

impl Game {
    pub fn refused(refusal: u64) -> Self {
        Self {
            refusal,
            ..Self::default()
        }
    }
    pub fn words(self) -> [u64; 3] {
        [self.refusal, self.forced, self.choice]
    }
    /// Of a game by calls of the caller's.
    pub fn of(
        image: &[u64],
        play: &Play,
        mut calls: impl FnMut(&[u64], Call) -> (Answer, Vec<u64>),
    ) -> Self {
        let refusal = refusal(image, play);
        if refusal != 0 {
            return Self::refused(refusal);
        }
        let calls = &mut calls;
        if turn(image, play) != Turn::Writer {
            let start = Some((image.to_vec(), play.time));
            return Self {
                forced: forced(start, play, play.rounds, calls).into(),
                ..Self::default()
            };
        }
        let first = CHOICES.iter().position(|choice| {
            let next = round(image, play.time, play, *choice, calls);
            forced(next, play, play.rounds - 1, calls)
        });
        Self {
            refusal: 0,
            forced: first.is_some().into(),
            choice: first.map_or(0, |first| first as u64 + 1),
        }
    }
}

#[cfg(test)]
mod tests;
