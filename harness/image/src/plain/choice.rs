//! The choice, one table of rules; then what was noted leaves the queue, and the winner's key.

use super::{
    lists::Entry,
    scan::Scan,
    state::{State, queue_key, without_key},
};
use crate::{block as b, context as c};

pub struct Choice {
    pub winner: Option<usize>,
    pub v: u64,
    /// The best late entry keeps its context locked.
    pub locked: Option<usize>,
    pub rule: u64,
}

impl State {
    pub fn choose(&self, scan: &Scan) -> Choice {
        let v = self.word(b::V);
        let holder = self.record(self.sched());
        let runs = self.holder_runs();
        let eligible = runs && holder[c::VTIME] <= v;
        let locked = scan.late.map(|late| late.context);
        let stays = |rule, v, locked| Choice {
            winner: None,
            v,
            locked,
            rule,
        };
        let wins = |rule, v, entry: Entry, locked| Choice {
            winner: Some(entry.context),
            v,
            locked,
            rule,
        };
        match (scan.eligible, scan.late) {
            (Some(entry), _) => {
                let other = self.record(entry.context);
                let (mine, theirs) = (holder[c::VD], other[c::VD]);
                let more_slice = holder[c::REM_SLICE] > other[c::REM_SLICE];
                if eligible && mine < theirs {
                    stays(2, v, locked)
                } else if eligible && mine == theirs && more_slice {
                    stays(3, v, locked)
                } else {
                    wins(1, v, entry, locked)
                }
            }
            (None, _) if eligible => stays(4, v, locked),
            (None, None) if runs => stays(5, holder[c::VTIME], None),
            (None, None) => stays(9, v, None),
            (None, Some(late)) if runs && holder[c::VTIME] <= late.vtime => {
                stays(5, late.vtime, locked)
            }
            (None, Some(late)) if runs && holder[c::VD] <= late.key.vd => {
                stays(6, late.vtime, locked)
            }
            (None, Some(late)) => wins(7, late.vtime, late, None),
        }
    }

    /// What the scan noted leaves; length and weight are published.
    pub fn clean_up(&mut self, scan: &Scan) {
        for key in &scan.leaves {
            self.remove_key(*key);
        }
        let total = self.word(b::TOTAL_WEIGHT).saturating_sub(scan.given_up);
        self.set(b::TOTAL_WEIGHT, total);
        self.set(b::PUBLISHED_WEIGHT, total);
        self.set(b::QUEUE_LEN, self.cpu().queue.len() as u64);
    }

    pub fn take_out(&mut self, choice: &Choice) {
        self.set(b::V, choice.v);
        let Some(winner) = choice.winner else { return };
        if let Some(key) = queue_key(self.record(winner)) {
            without_key(self.record_mut(winner));
            self.remove_key(key);
        }
    }
}
