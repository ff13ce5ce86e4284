//! Where a trace is to stop.

use ronthuyal::words::value::{number, time};

/// Where a trace is to stop.
#[derive(Clone, Copy, Debug, PartialEq, Eq)]
pub enum Until {
    End,
    /// Before the first call that is later.
    Time(u64),
    /// Behind so many calls.
    Calls(u64),
}

impl Until {
    pub fn parse(text: &str) -> Result<Self, String> {
        let calls = text.strip_suffix("calls").or_else(|| text.strip_suffix("call"));
        let calls = calls.and_then(number).map(Self::Calls);
        let time = || time(text).map(Self::Time);
        calls.or_else(time).ok_or_else(|| {
            format!("--until: \"{text}\" is no time; a number with ns, us, ms or s is, and 4calls is behind four calls")
        })
    }
}
