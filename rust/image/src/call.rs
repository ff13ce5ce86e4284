//! A call on an image.

use crate::tables::OPERATIONS;
use alloc::format;
use alloc::string::{String, ToString};

/// A call: what it does, on which CPU, and what it takes.
#[derive(Clone, Copy, Debug, PartialEq, Eq, Hash)]
#[non_exhaustive]
pub enum Call {
    /// An operation by its number.
    Operation {
        /// 1 to 7 are known.
        operation: u64,
        /// The CPU that runs it.
        cpu: u64,
        /// Now, in nanoseconds.
        time: u64,
        /// The context, where the operation takes one.
        context: u64,
    },
    /// Unblocks every context of a mask, or none.
    UnblockGroup {
        /// The CPU that runs it.
        cpu: u64,
        /// Now, in nanoseconds.
        time: u64,
        /// Bit x stands for context x.
        mask: u64,
    },
    /// Adds up the weights of a CPU.
    TotalWeight {
        /// The CPU.
        cpu: u64,
    },
    /// What a switch would give.
    Ask {
        /// The CPU.
        cpu: u64,
        /// Of the switch, in nanoseconds.
        time: u64,
    },
    /// The switch, if it gives this reply.
    Commit {
        /// The CPU.
        cpu: u64,
        /// Of the switch, in nanoseconds.
        time: u64,
        /// Refusal, result, in charge, current and V.
        reply: [u64; 5],
    },
}

impl Call {
    /// Its CPU.
    pub fn cpu(&self) -> u64 {
        match *self {
            Self::Operation { cpu, .. }
            | Self::UnblockGroup { cpu, .. }
            | Self::TotalWeight { cpu }
            | Self::Ask { cpu, .. }
            | Self::Commit { cpu, .. } => cpu,
        }
    }

    /// Its time; the sum of weights has none.
    pub fn time(&self) -> Option<u64> {
        match *self {
            Self::Operation { time, .. }
            | Self::UnblockGroup { time, .. }
            | Self::Ask { time, .. }
            | Self::Commit { time, .. } => Some(time),
            Self::TotalWeight { .. } => None,
        }
    }

    /// The number of the operation that it is, or makes: asking and committing are a switch.
    pub fn operation(&self) -> Option<u64> {
        match *self {
            Self::Operation { operation, .. } => Some(operation),
            Self::Ask { .. } | Self::Commit { .. } => Some(2),
            _ => None,
        }
    }

    /// Its name, unless it is an operation that there is not.
    pub fn known_name(&self) -> Option<&'static str> {
        match *self {
            Self::Operation { operation, .. } => row(operation).map(|row| row.name),
            Self::UnblockGroup { .. } => Some("unblock_group"),
            Self::TotalWeight { .. } => Some("total_weight"),
            Self::Ask { .. } => Some("ask"),
            Self::Commit { .. } => Some("commit"),
        }
    }

    /// Its name; of an operation that there is not, its number.
    pub fn name(&self) -> String {
        match (self.known_name(), self) {
            (Some(name), _) => name.to_string(),
            (None, Self::Operation { operation, .. }) => format!("operation {operation}"),
            (None, _) => String::new(),
        }
    }

    /// The context that it names.
    pub fn context(&self) -> Option<u64> {
        match *self {
            Self::Operation { operation, context, .. } if row(operation).is_some_and(|row| row.takes_context) => {
                Some(context)
            }
            _ => None,
        }
    }

    /// Whether it may run a decision: operations 1 to 3, asking and committing.
    pub fn decides(&self) -> bool {
        self.operation().is_some_and(|number| (1..=3).contains(&number))
    }
}

/// The operation of this number.
pub(crate) fn row(operation: u64) -> Option<&'static crate::word::OperationRow> {
    OPERATIONS.get(usize::try_from(operation.checked_sub(1)?).ok()?)
}
