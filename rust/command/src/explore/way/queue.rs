//! Those who wait, and why they are not in charge.

use super::Way;
use crate::happened::Fate;
use ronthuyal::words::locks::{FREE, SPACE_WRITTEN};
use ronthuyal::words::{View, block, context};

/// The order of a queue: the earlier deadline, then the larger rest of the slice, then the smaller id.
type Key = (u64, std::cmp::Reverse<u64>, u64);

impl Way<'_> {
    /// Key and vtime of an entry as the scan finds it: as it was queued before, or as it was woken.
    fn entry(&self, number: u64) -> (Key, u64) {
        let key = |view: View, slot: usize| {
            let word = |list: usize| view.block(self.here, list + slot);
            let slice = std::cmp::Reverse(word(block::KEY_REM_SLICE));
            (word(block::KEY_VD), slice, word(block::KEY_CTXT_ID))
        };
        let woken = self.woken(number);
        if let Some(slot) = self
            .before
            .queue(self.here)
            .position(|other| other == number)
            .filter(|_| !woken)
        {
            return (
                key(self.before, slot),
                self.before.block(self.here, block::ENTRY_VTIME + slot),
            );
        }
        if let Some(slot) = self.after.queue(self.here).position(|other| other == number) {
            return (
                key(self.after, slot),
                self.after.block(self.here, block::ENTRY_VTIME + slot),
            );
        }
        let word = |word| self.after.record(number as usize, word);
        let slice = std::cmp::Reverse(word(context::REM_SLICE));
        (
            (word(context::VD), slice, word(context::DEBUG_ID)),
            word(context::VTIME),
        )
    }

    /// Whether this decision has taken it off a timer or the local list.
    fn woken(&self, number: u64) -> bool {
        let timed = self.outcome.timers.iter();
        let served = timed.into_iter().any(|timer| *timer == (Fate::Served, number));
        let slots = 0..self.before.used(self.here, block::LOCAL_COUNT);
        let mut local = slots.map(|slot| self.before.block(self.here, block::LOCAL_WAKEUP_LIST + slot));
        served || (self.word(number, context::LOCK) == FREE && local.any(|other| other == number))
    }

    /// Those who were queued or woken and are not in charge, in the order of the queue.
    pub fn queue(&mut self) {
        let mut waiting: Vec<u64> = self.before.queue(self.here).collect();
        waiting.extend(self.after.queue(self.here).filter(|number| self.woken(*number)));
        waiting.retain(|number| *number != self.outcome.in_charge && *number != self.holder);
        waiting.sort_by_key(|number| self.entry(*number).0);
        waiting.dedup();
        for number in waiting {
            let why = self.passed(number);
            self.told.push(format!("{} is queued: {why}.", self.name(number)));
        }
    }

    /// Why this one is not in charge.
    fn passed(&self, number: u64) -> String {
        let (winner, rule) = (self.outcome.in_charge, self.outcome.rule);
        let name = self.name(winner);
        let (key, vtime) = self.entry(number);
        if let Some(later) = later(key, self.entry(winner).0).filter(|_| rule == 1) {
            return format!("{later} than {name}");
        }
        let v = self.before.block(self.here, block::V);
        // Where somebody is eligible the scan does not look at those who are late.
        if vtime > v && rule <= 4 {
            return format!("it has had more than its share, vtime {vtime} is past V {v}");
        }
        if let Some(why) = self.cannot(number) {
            return why;
        }
        let word = |word| self.after.record(winner as usize, word);
        let slice = std::cmp::Reverse(word(context::REM_SLICE));
        let own = (word(context::VD), slice, word(context::DEBUG_ID));
        match rule {
            2 | 3 => later(key, own).map(|later| format!("{later} than {name}, who ran")),
            5 if vtime > word(context::VTIME) => Some(format!("it has had more than {name}, who ran")),
            6 => Some(format!(
                "nobody is within its share, and the deadline of {name}, who ran, is not later"
            )),
            7 if vtime > self.entry(winner).1 => Some(format!("it has had more than {name}")),
            7 => Some(format!("it has had no less than {name}, who comes first")),
            _ => None,
        }
        .unwrap_or_else(|| format!("{name} was chosen"))
    }

    /// Why it cannot run here, if so.
    fn cannot(&self, number: u64) -> Option<String> {
        let word = |word| self.word(number, word);
        let (gone, status) = (self.before.gone(number as usize), word(context::STATUS));
        let due = status == context::BLOCKED && word(context::HAS_WAKE) == 1 && word(context::WAKE) <= self.time;
        let blocked = status != context::RUNNABLE && !due && !self.woken(number);
        let why = match self.locked(number) {
            _ if gone => "it is gone",
            _ if number == self.before.block(self.here, block::IDLE_CTXT) => "it is the idle context here",
            Some(locked) => locked,
            None if word(context::RUNNING) == 1 || word(context::CURRENTLY_SCHEDULED) == 1 => "it has a CPU",
            None if word(context::SCHED_AFFINITY) >> self.here & 1 == 0 => "it may not run on this CPU",
            None if blocked => "it is blocked",
            None if word(context::ADDR_SPACE) == SPACE_WRITTEN => "another CPU is writing its address space",
            None => return None,
        };
        let stays = self.after.queue(self.here).any(|other| other == number);
        let went = if stays {
            "it is passed over"
        } else {
            "its entry is taken out"
        };
        Some(format!("{why}, and {went}"))
    }
}

/// How one key is behind another, if it is.
fn later(one: Key, other: Key) -> Option<&'static str> {
    if one <= other {
        None
    } else if one.0 > other.0 {
        Some("it has a later deadline")
    } else if one.1 > other.1 {
        Some("at the same deadline it has less of its slice left")
    } else {
        Some("at the same deadline and slice it has a larger id")
    }
}
