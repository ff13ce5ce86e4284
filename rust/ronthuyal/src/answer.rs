//! What a call gives.

use crate::call::Call;
use crate::rules::Rule;
use core::fmt;
use ronthuyal_image::tables::REFUSALS;
use ronthuyal_sys::Answer;

/// A call that was made: the image holds what it left.
#[derive(Clone, Copy, Debug, PartialEq, Eq, Hash)]
#[non_exhaustive]
pub struct Done {
    /// What came of it.
    pub outcome: Outcome,
    /// Whether a wake-up was put on another CPU's list.
    pub interrupt: bool,
    /// By which rule a decision left whom in charge; nothing where nothing was decided.
    pub rule: Option<Rule>,
    /// The number that the archive answers as result.
    pub result: u64,
}

/// What came of a call.
#[derive(Clone, Copy, Debug, PartialEq, Eq, Hash)]
#[non_exhaustive]
pub enum Outcome {
    /// A tick that makes no switch due.
    NotDue,
    /// Somebody new is in charge, or a switch back or a direct one was made.
    Switched,
    /// Who was in charge stays; it need not be idle.
    AllContextsIdle,
    /// The context was soft-blocked and is runnable now.
    Unblocked,
    /// The context was not soft-blocked.
    WasNotBlocked,
    /// The interrupt list was moved behind the local one.
    Drained,
    /// The context was runnable and is no more.
    Blocked,
    /// The context was not runnable.
    WasNotRunnable,
    /// A number: how many of a group were soft-blocked, or a CPU's weight.
    Number(u64),
}

impl Outcome {
    fn of(call: &Call, result: u64) -> Self {
        match (call.operation(), result) {
            (Some(1), 0) => Self::NotDue,
            (Some(1..=3), 1) => Self::Switched,
            (Some(1..=3), 2) => Self::AllContextsIdle,
            (Some(4), 1) => Self::Unblocked,
            (Some(4), 0) => Self::WasNotBlocked,
            (Some(5), 0) => Self::Drained,
            (Some(6 | 7), 1) => Self::Blocked,
            (Some(6 | 7), 0) => Self::WasNotRunnable,
            _ => Self::Number(result),
        }
    }
}

impl fmt::Display for Outcome {
    fn fmt(&self, f: &mut fmt::Formatter<'_>) -> fmt::Result {
        f.write_str(match self {
            Self::NotDue => "no switch is due",
            Self::Switched => "Switched",
            Self::AllContextsIdle => "AllContextsIdle",
            Self::Unblocked => "unblocked",
            Self::WasNotBlocked => "was not blocked",
            Self::Drained => "drained",
            Self::Blocked => "blocked",
            Self::WasNotRunnable => "was not runnable",
            Self::Number(number) => return write!(f, "{number}"),
        })
    }
}

/// Why a call was not made: every word is as it was.
#[derive(Clone, Copy, Debug, PartialEq, Eq, Hash)]
#[non_exhaustive]
pub enum Refusal {
    /// 1: fewer than two words, or a size out of bounds.
    Sizes,
    /// 2: the length is not the one that the sizes give.
    Length,
    /// 3: a word, or the call's time, outside its range.
    Range,
    /// 4: the structure is broken.
    Structure,
    /// 5: no such operation, CPU or context.
    Unknown,
    /// 6: a lock is not free.
    Locked,
    /// 7: a direct switch away from the idle context.
    FromIdle,
    /// 8: too long after the CPU's last decision.
    TooLate,
    /// 9: a queue, timer set or list would get its 65th item.
    NoRoom,
    /// 13: a commit whose reply is no longer what the switch gives.
    NotTheReply,
    /// 14: writer against rival with rounds outside 1 to 6, or writer and rival the same.
    NoGame,
    /// A number that this version does not know.
    Other(u64),
}

impl Refusal {
    const KNOWN: [(u64, Self); 11] = [
        (1, Self::Sizes),
        (2, Self::Length),
        (3, Self::Range),
        (4, Self::Structure),
        (5, Self::Unknown),
        (6, Self::Locked),
        (7, Self::FromIdle),
        (8, Self::TooLate),
        (9, Self::NoRoom),
        (13, Self::NotTheReply),
        (14, Self::NoGame),
    ];

    /// The refusal of this number; 0 is none.
    pub fn new(number: u64) -> Option<Self> {
        let known = Self::KNOWN.iter().find(|(known, _)| *known == number);
        match (number, known) {
            (0, _) => None,
            (_, Some((_, refusal))) => Some(*refusal),
            _ => Some(Self::Other(number)),
        }
    }

    /// Its number.
    pub fn number(self) -> u64 {
        match self {
            Self::Other(number) => number,
            known => Self::KNOWN
                .iter()
                .find(|(_, row)| *row == known)
                .map_or(0, |(number, _)| *number),
        }
    }
}

impl fmt::Display for Refusal {
    fn fmt(&self, f: &mut fmt::Formatter<'_>) -> fmt::Result {
        let number = self.number();
        match REFUSALS.iter().find(|(known, _)| *known == number) {
            Some((_, says)) => write!(f, "refused with {number}: {says}"),
            None => write!(f, "refused with {number}"),
        }
    }
}

impl core::error::Error for Refusal {}

/// What the archive's answer means.
pub(crate) fn read(call: &Call, answer: Answer) -> Result<Done, Refusal> {
    match Refusal::new(answer.refusal) {
        Some(refusal) => Err(refusal),
        None => Ok(Done {
            outcome: Outcome::of(call, answer.result),
            interrupt: answer.interrupt == 1,
            rule: Rule::new(answer.rule),
            result: answer.result,
        }),
    }
}
