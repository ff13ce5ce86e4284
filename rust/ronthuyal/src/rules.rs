//! The rules of a decision. Written by tools/places.py.

/// By which rule a decision left whom in charge; README.md says what each means when one tunes priorities.
#[derive(Clone, Copy, Debug, PartialEq, Eq, Hash)]
#[non_exhaustive]
pub enum Rule {
    /// First eligible entry: some ready entry is eligible, and not 2 or 3.
    FirstEligible = 1,
    /// Holder kept by its deadline: some ready entry is eligible, the holder is runnable and eligible, and its deadline is before that of the first such entry.
    HolderDeadline = 2,
    /// Holder kept by its slice: the same with equal deadlines and more slice left.
    HolderSlice = 3,
    /// Holder alone eligible: the holder is runnable and eligible, no ready entry is eligible.
    HolderAlone = 4,
    /// Holder with least virtual time: nobody is eligible, the holder is runnable, and no ready entry has a smaller vtime (also if it waits alone).
    HolderVtime = 5,
    /// Holder kept by deadline with nobody eligible: nobody is eligible, the holder is runnable, some ready entry has a smaller vtime, and the holder's vd is at most that of the first one with the least.
    HolderLateDeadline = 6,
    /// Entry with least virtual time: nobody is eligible, some entry is ready, and not 5 or 6.
    EntryVtime = 7,
    /// Stolen: nobody waits, and this turn stole somebody.
    Stolen = 8,
    /// Idle: nobody waits, and it stole nobody.
    Idle = 9,
}

impl Rule {
    /// The rule of this number; 0 is that of a call that decides nothing.
    pub const fn new(number: u64) -> Option<Self> {
        Some(match number {
            1 => Self::FirstEligible,
            2 => Self::HolderDeadline,
            3 => Self::HolderSlice,
            4 => Self::HolderAlone,
            5 => Self::HolderVtime,
            6 => Self::HolderLateDeadline,
            7 => Self::EntryVtime,
            8 => Self::Stolen,
            9 => Self::Idle,
            _ => return None,
        })
    }
}
