//! Wake-ups: each due timer in its turn, then the local list in its own order.

use super::{
    lists::{Entry, Timer, by_rank},
    state::{State, queue_key, with_new_key},
};
use crate::{SLICE_MAX, block as b, context as c};

/// A context, and the wake of its timer if it is a timer's.
type Wakeup = (Option<u64>, usize);

impl State {
    fn is_due(&self, timer: &Timer) -> bool {
        timer.wake <= self.time + 1
    }
    fn is_readable(&self, context: usize) -> bool {
        context != self.sched() && self.record(context)[c::LOCK] != 2
    }
    fn waits_for(&self, context: usize, wake: u64) -> bool {
        let record = self.record(context);
        record[c::STATUS] == c::BLOCKED && record[c::HAS_WAKE] == 1 && record[c::WAKE] == wake
    }
    /// Its context can be read, and still waits for it.
    fn is_live(&self, timer: &Timer) -> bool {
        self.record(timer.context)[c::GONE] == 0
            && self.is_readable(timer.context)
            && self.waits_for(timer.context, timer.wake)
    }
    /// Not due, or its context is locked.
    fn stays(&self, timer: &Timer) -> bool {
        let gone = self.record(timer.context)[c::GONE] == 1;
        !self.is_due(timer) || !gone && !self.is_readable(timer.context)
    }

    fn wakeups(&self) -> Vec<Wakeup> {
        let timers = by_rank(&self.cpu().timers);
        let served = timers.iter().filter(|t| self.is_due(t) && self.is_live(t));
        let names = self.cpu().local.iter().map(|name| (None, *name as usize));
        let timers = served.map(|timer| (Some(timer.wake), timer.context));
        timers.chain(names).collect()
    }

    /// What is looked at leaves its list first.
    pub fn serve_wakeups(&mut self) {
        let wakeups = self.wakeups();
        let timers = self.cpu().timers.clone();
        let kept = timers.into_iter().filter(|timer| self.stays(timer));
        self.machine.cpus[self.here].timers = kept.collect();
        self.cpu_mut().local.clear();
        for (wake, context) in wakeups {
            self.serve(wake, context);
        }
    }

    fn serve(&mut self, wake: Option<u64>, context: usize) {
        if context == self.sched() || self.record(context)[c::GONE] == 1 {
            return;
        }
        if self.record(context)[c::LOCK] != 0 {
            // It is tried again at the next decision.
            match wake {
                Some(wake) => self.insert_timer(Timer { wake, context }),
                None => self.push_local(context),
            }
            return;
        }
        if wake.is_some_and(|wake| self.waits_for(context, wake)) {
            let record = self.record_mut(context);
            record[c::STATUS] = c::RUNNABLE;
            record[c::HAS_WAKE] = 0;
            record[c::WAKE] = 0;
        }
        let record = self.record(context);
        let runs_elsewhere = record[c::RUNNING] == 1 && context != self.current();
        let enters = record[c::STATUS] == c::RUNNABLE
            && record[c::CURRENTLY_SCHEDULED] == 0
            && record[c::USERSPACE] == 1;
        if enters && !runs_elsewhere {
            self.enter(context);
        }
    }

    fn enter(&mut self, context: usize) {
        let v = self.word(b::V);
        let weight = (self.weight)(self.record(context)[c::PRIO]);
        if self.record(context)[c::IS_ACTIVE] == 0 {
            let total = self.word(b::TOTAL_WEIGHT) + weight;
            self.set(b::TOTAL_WEIGHT, total);
            self.set(b::PUBLISHED_WEIGHT, total);
        }
        if let Some(old) = queue_key(self.record(context)) {
            self.remove_key(old);
        }
        let record = self.record_mut(context);
        record[c::IS_ACTIVE] = 1;
        record[c::VTIME] = record[c::VTIME].max(v);
        record[c::VD] = record[c::VTIME] + SLICE_MAX / weight;
        record[c::REM_SLICE] = SLICE_MAX;
        let key = with_new_key(record);
        let vtime = record[c::VTIME];
        self.insert_entry(Entry {
            key,
            vtime,
            weight,
            context,
        });
    }
}
