//! What the tables say of a word.

/// What a word counts or names.
#[derive(Clone, Copy, Debug, PartialEq, Eq, Hash)]
#[non_exhaustive]
pub enum Unit {
    /// 0 or 1.
    Mark,
    /// A context's id.
    Id,
    /// One of [`STATUS`](crate::tables::STATUS).
    Status,
    /// A CPU's number plus 1; 0 for none.
    CpuPlusOne,
    /// Time in nanoseconds.
    Nanoseconds,
    /// Bit k stands for CPU k.
    Mask,
    /// A priority; 0 weighs most.
    Priority,
    /// Scaled ticks over weight.
    VirtualTime,
    /// 2^-30 of a timer tick of 2.25 ms.
    ScaledTicks,
    /// One of [`LOCK`](crate::tables::LOCK).
    Lock,
    /// One of [`ADDR_SPACE`](crate::tables::ADDR_SPACE).
    AddrSpace,
    /// A context's number.
    Context,
    /// Timer ticks of 2.25 ms.
    TimerTicks,
    /// How many there are of something.
    Items,
    /// What a priority stands for.
    Weight,
    /// A count of decisions.
    Decisions,
    /// One of [`STATE`](crate::tables::STATE).
    State,
    /// Time in milliseconds.
    Milliseconds,
    /// 2^-30 ns.
    Remainder,
}

/// The values that a word may have, its neighbours aside.
#[derive(Clone, Copy, Debug, PartialEq, Eq, Hash)]
#[non_exhaustive]
pub enum Range {
    /// Any.
    Any,
    /// From the first to the second, both included.
    Between(u64, u64),
    /// A context's number: 0 to N - 1.
    Contexts,
    /// 0 to C.
    Cpus,
}

impl Range {
    /// The least and the greatest value, in an image of these sizes.
    pub const fn bounds(self, cpus: u64, contexts: u64) -> (u64, u64) {
        match self {
            Self::Any => (0, u64::MAX),
            Self::Between(low, high) => (low, high),
            Self::Contexts => (0, contexts.saturating_sub(1)),
            Self::Cpus => (0, cpus),
        }
    }
}

/// A word of a record or a block.
#[derive(Clone, Copy, Debug, PartialEq, Eq, Hash)]
pub struct Word {
    /// Its name; of an array's word with `[i]` for the slot.
    pub name: &'static str,
    /// What it counts or names.
    pub unit: Unit,
    /// The values that it may have.
    pub range: Range,
    /// The same as a reader is told it.
    pub allowed: &'static str,
    /// The word that must be 1 for this one to be other than 0.
    pub mark: Option<usize>,
    /// What the kernel gives a new context or CPU.
    pub default: u64,
    /// What it says.
    pub says: &'static str,
}

/// A column of 64 words in a CPU's block.
#[derive(Clone, Copy, Debug, PartialEq, Eq, Hash)]
pub struct Array {
    /// Where it begins in the block.
    pub place: usize,
    /// The word of the block that says how many slots are used.
    pub count: usize,
    /// What its words are.
    pub word: Word,
}

/// A call that has a number.
#[derive(Clone, Copy, Debug, PartialEq, Eq, Hash)]
pub struct OperationRow {
    /// The kernel's function.
    pub name: &'static str,
    /// Whether it names a context.
    pub takes_context: bool,
    /// What its result means.
    pub result: &'static str,
    /// What it does.
    pub says: &'static str,
}

/// A call that has none.
#[derive(Clone, Copy, Debug, PartialEq, Eq, Hash)]
pub struct CallRow {
    /// Its name, without `ronthuyal_`.
    pub name: &'static str,
    /// What it takes behind the words that are lent.
    pub takes: &'static [&'static str],
    /// Whether it only reads them.
    pub reads: bool,
    /// What its result means.
    pub result: &'static str,
    /// What it does.
    pub says: &'static str,
}
