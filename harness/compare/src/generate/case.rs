//! A generated case, and the kinds of cases.

use super::rng::Rng;
use image::Call;

#[derive(Clone, Copy, Debug, PartialEq, Eq)]
pub enum Kind {
    Tidy,
    Untidy,
    Full,
    Damaged,
    Chain,
    /// Read from a recorded list, not generated.
    Recorded,
}

pub const KINDS: [(Kind, &str); 5] = [
    (Kind::Tidy, "tidy"),
    (Kind::Untidy, "untidy"),
    (Kind::Full, "full"),
    (Kind::Damaged, "damaged"),
    (Kind::Chain, "chain"),
];

#[derive(Clone)]
pub struct Case<A = Call> {
    pub kind: Kind,
    pub image: Vec<u64>,
    /// An operation, or a group.
    pub call: A,
    /// Whether the image is the one that the call before left.
    pub chained: bool,
}

/// Which cases a stream has.
#[derive(Clone, Copy, PartialEq, Eq)]
pub enum Choice {
    All,
    /// Only machines of one or two CPUs and few contexts.
    #[cfg_attr(not(feature = "branches"), allow(dead_code))]
    Small,
    /// Only chains, and long ones.
    Chains,
    /// Machines with due timers that cannot be read.
    Timers,
    /// Decisions by rules that are seldom met otherwise.
    Rules,
    /// Machines whose stored total weights are those added up: single decisions, and long chains.
    Weighed,
}

impl Choice {
    /// The kind of the next machine.
    pub fn kind(self, rng: &mut Rng) -> Kind {
        if self == Self::Chains {
            return Kind::Chain;
        }
        match (rng.below(20), self) {
            (0, Self::Weighed) => Kind::Chain,
            (_, Self::Weighed) => Kind::Tidy,
            (0..=4, _) => Kind::Tidy,
            (5..=10, _) => Kind::Untidy,
            (11..=13, _) => Kind::Full,
            (14..=18, Self::Timers) => Kind::Full,
            (14..=18, Self::Rules) => Kind::Tidy,
            (14..=18, _) => Kind::Damaged,
            _ => Kind::Chain,
        }
    }
    pub fn long_chains(self) -> bool {
        matches!(self, Self::Chains | Self::Weighed)
    }
}
