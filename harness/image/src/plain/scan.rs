//! The scan: each entry in its turn, unless one of three flags says to pass it over.

use super::{
    lists::{Entry, Key, by_rank},
    machine::Record,
    state::{State, without_key},
};
use crate::{block as b, context as c};

#[derive(Default)]
pub struct Scan {
    /// The first eligible entry.
    pub eligible: Option<Entry>,
    /// The first of the least virtual time, of those that are late.
    pub late: Option<Entry>,
    /// The keys that are noted to leave, and the weight given up.
    pub leaves: Vec<Key>,
    pub given_up: u64,
}

/// What `update_runnable` says.
#[derive(PartialEq, Eq)]
pub enum Runnable {
    CanSwitch,
    Skip,
    Blocked,
}

impl State {
    /// Whether a context can be switched to; one whose wake has come is woken.
    pub fn update_runnable(&mut self, context: usize, in_charge: bool, current: bool) -> Runnable {
        let (here, time) = (self.here, self.time);
        let record = self.record_mut(context);
        let runs = record[c::RUNNING] == 1 && !current;
        let scheduled = record[c::CURRENTLY_SCHEDULED] == 1 && !in_charge;
        if runs || scheduled || record[c::SCHED_AFFINITY] >> here & 1 == 0 {
            return Runnable::Skip;
        }
        let sleeps = record[c::STATUS] == c::BLOCKED && record[c::HAS_WAKE] == 1;
        if sleeps && record[c::WAKE] <= time {
            record[c::STATUS] = c::RUNNABLE;
            record[c::HAS_WAKE] = 0;
            record[c::WAKE] = 0;
        }
        match record[c::STATUS] {
            c::RUNNABLE => Runnable::CanSwitch,
            _ => Runnable::Blocked,
        }
    }

    /// The virtual time of a runnable holder that is late.
    fn late_holder(&self) -> Option<u64> {
        let vtime = self.record(self.sched())[c::VTIME];
        (self.holder_runs() && vtime > self.word(b::V)).then_some(vtime)
    }

    pub fn scan(&mut self) -> Scan {
        let (v, holder) = (self.word(b::V), self.late_holder());
        let mut scan = Scan::default();
        for entry in by_rank(&self.cpu().queue) {
            let least = scan.late.map(|late| late.vtime).or(holder);
            let is_eligible = entry.vtime <= v;
            let is_over = scan.eligible.is_some();
            let is_later = !is_eligible && least.is_some_and(|least| entry.vtime > least);
            let is_gone = self.record(entry.context)[c::GONE] == 1;
            let is_locked = !is_gone && scan.late.is_some_and(|e| e.context == entry.context);
            if is_over || is_later || is_locked || !self.looked_at(&mut scan, &entry) {
                continue;
            }
            if is_eligible {
                scan.eligible = Some(entry);
            } else if least.is_none_or(|least| entry.vtime < least) {
                scan.late = Some(entry);
            }
        }
        scan
    }

    /// Whether the entry is ready; one that cannot run is noted to leave.
    fn looked_at(&mut self, scan: &mut Scan, entry: &Entry) -> bool {
        let context = entry.context;
        if self.record(context)[c::GONE] == 1 {
            scan.leaves.push(entry.key);
            scan.given_up += entry.weight;
            return false;
        }
        let seated = context == self.idle() || context == self.sched();
        if seated || self.record(context)[c::LOCK] != 0 {
            return false;
        }
        match self.update_runnable(context, false, context == self.current()) {
            Runnable::CanSwitch => self.record(context)[c::ADDR_SPACE] != 2,
            Runnable::Skip => false,
            Runnable::Blocked => {
                scan.leaves.push(entry.key);
                scan.given_up += self.record(context)[c::IS_ACTIVE] * entry.weight;
                stopped(self.record_mut(context));
                false
            }
        }
    }
}

fn stopped(record: &mut Record) {
    record[c::IS_ACTIVE] = 0;
    record[c::REM_SLICE] = 0;
    without_key(record);
}
