//! What a lane shows.

/// What a bar says.
#[derive(Clone, Copy, Debug, PartialEq, Eq)]
pub enum Shown {
    /// Of a CPU: who is in charge.
    InCharge(u64),
    /// Of a CPU: its idle context is.
    Idle,
    /// Of a CPU that is not there.
    Absent,
    /// Of a context: current on a CPU.
    Running(usize),
    /// Of a context: runnable, and not current.
    Waiting,
    /// Of a context: soft-blocked.
    Blocked,
    /// Of a context: blocked in another way, not started, dead or gone.
    Out,
}

#[derive(Clone, Copy, Debug, PartialEq, Eq)]
pub enum Mark {
    WakeUp,
    Theft,
    Interrupt,
    Refused,
}

impl Mark {
    pub fn name(self) -> &'static str {
        match self {
            Self::WakeUp => "wake-up",
            Self::Theft => "theft",
            Self::Interrupt => "interrupt",
            Self::Refused => "refused call",
        }
    }
}

/// When, what, and in words.
pub type Noted = (u64, Mark, String);

pub struct Lane {
    pub name: String,
    /// From when on what is shown.
    pub parts: Vec<(u64, Shown)>,
    pub marks: Vec<Noted>,
}

impl Lane {
    pub fn new(name: String) -> Self {
        Self {
            name,
            parts: Vec::new(),
            marks: Vec::new(),
        }
    }
    /// True if it is another than before. What lasts no time is not shown.
    pub fn show(&mut self, time: u64, shown: Shown) -> bool {
        match self.parts.last() {
            Some((_, last)) if *last == shown => return false,
            Some((from, _)) if *from == time => {
                self.parts.pop();
            }
            _ => {}
        }
        if self.parts.last().is_none_or(|(_, last)| *last != shown) {
            self.parts.push((time, shown));
        }
        true
    }
}
