//! CPUs, contexts and times, which are all numbers to the archive.

use core::fmt;
use core::ops::Add;
use core::time::Duration;

/// A CPU by its number, from 0.
#[derive(Clone, Copy, Debug, PartialEq, Eq, PartialOrd, Ord, Hash)]
pub struct Cpu(pub u64);

/// A context by its number, from 0. It is its place in the image, not the kernel's id.
#[derive(Clone, Copy, Debug, PartialEq, Eq, PartialOrd, Ord, Hash)]
pub struct ContextId(pub u64);

/// A moment in nanoseconds.
///
/// ```
/// use ronthuyal::Time;
/// use std::time::Duration;
///
/// let cue = Time::from_millis(1000);
/// assert_eq!((cue + Duration::from_micros(6750)).as_nanos(), 1_006_750_000);
/// assert_eq!(cue.to_string(), "1s");
/// ```
#[derive(Clone, Copy, Debug, Default, PartialEq, Eq, PartialOrd, Ord, Hash)]
pub struct Time(u64);

impl Time {
    /// The beginning.
    pub const ZERO: Self = Self(0);

    /// So many nanoseconds after the beginning.
    pub const fn from_nanos(nanos: u64) -> Self {
        Self(nanos)
    }
    /// So many milliseconds after the beginning; at most 2^64 - 1 nanoseconds.
    pub const fn from_millis(millis: u64) -> Self {
        Self(millis.saturating_mul(1_000_000))
    }
    /// In nanoseconds.
    pub const fn as_nanos(self) -> u64 {
        self.0
    }
}

/// At most 2^64 - 1 nanoseconds.
impl Add<Duration> for Time {
    type Output = Self;
    fn add(self, later: Duration) -> Self {
        let nanos = u64::try_from(later.as_nanos()).unwrap_or(u64::MAX);
        Self(self.0.saturating_add(nanos))
    }
}

impl fmt::Display for Time {
    fn fmt(&self, f: &mut fmt::Formatter<'_>) -> fmt::Result {
        f.write_str(&ronthuyal_image::value::show_time(self.0))
    }
}

/// A group of contexts.
///
/// ```
/// use ronthuyal::{ContextId, Contexts};
///
/// let group: Contexts = [ContextId(1), ContextId(3)].into_iter().collect();
/// assert_eq!(group.mask(), 0b1010);
/// ```
#[derive(Clone, Copy, Debug, Default, PartialEq, Eq, Hash)]
pub struct Contexts(u64);

impl Contexts {
    /// The group whose contexts have their bits set.
    pub const fn from_mask(mask: u64) -> Self {
        Self(mask)
    }
    /// Bit x is set for context x.
    pub const fn mask(self) -> u64 {
        self.0
    }
}

/// A number over 63 is in no group and is left out.
impl FromIterator<ContextId> for Contexts {
    fn from_iter<I: IntoIterator<Item = ContextId>>(contexts: I) -> Self {
        let bits = contexts.into_iter().filter(|context| context.0 < 64);
        Self(bits.fold(0, |mask, context| mask | 1 << context.0))
    }
}
