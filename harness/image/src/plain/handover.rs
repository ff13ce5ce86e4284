//! The hand-over: V advances, a holder that lost is put in again, and the slice changes hands.

use super::{
    ALL_CONTEXTS_IDLE, SWITCHED,
    choice::Choice,
    lists::Entry,
    scan::Runnable,
    state::{State, queue_key, with_new_key},
};
use crate::{block as b, context as c};

/// States of a CPU.
const IDLE: u64 = 0;
const KERNEL: u64 = 1;
const USER: u64 = 2;

impl State {
    pub fn settle(&mut self, choice: &Choice, runs: bool, ticks: u64) {
        let total = self.word(b::TOTAL_WEIGHT);
        if (choice.winner.is_some() || runs) && total > 0 {
            let v = self.word(b::V) + ticks / total;
            self.set(b::V, v);
        }
        if choice.winner.is_some() && runs {
            self.requeue();
        }
        self.set(b::STEALABLE, (!self.cpu().queue.is_empty()).into());
    }

    fn requeue(&mut self) {
        let holder = self.sched();
        if let Some(old) = queue_key(self.record(holder)) {
            self.remove_key(old);
        }
        let weight = (self.weight)(self.record(holder)[c::PRIO]);
        let record = self.record_mut(holder);
        let (key, vtime) = (with_new_key(record), record[c::VTIME]);
        self.insert_entry(Entry {
            key,
            vtime,
            weight,
            context: holder,
        });
    }

    /// Who gets the slice; nobody if it stays where it is.
    pub fn next(&self, choice: &Choice, runs: bool) -> Option<usize> {
        let to_idle = (!runs && !self.is_idle()).then_some(self.idle());
        choice.winner.or(to_idle)
    }

    /// The result.
    pub fn hand_over(&mut self, next: Option<usize>, was_idle: bool) -> u64 {
        let Some(next) = next else {
            self.set(b::STATE, IDLE);
            return ALL_CONTEXTS_IDLE;
        };
        let (time, previous) = (self.time, self.sched());
        self.set(b::SCHED_CTXT, next as u64);
        let record = self.record_mut(previous);
        record[c::CURRENTLY_SCHEDULED] = 0;
        if !was_idle {
            record[c::SCHED_CPU_TIME] += time.saturating_sub(record[c::SCHEDULE_TIME]);
        }
        let record = self.record_mut(next);
        record[c::CURRENTLY_SCHEDULED] = 1;
        record[c::SCHEDULE_TIME] = time;
        if next != self.current() {
            self.switch_to(next);
        }
        SWITCHED
    }

    /// One context leaves the CPU and another comes.
    fn switch_to(&mut self, next: usize) {
        let (time, previous) = (self.time, self.current());
        let was_idle = previous == self.idle();
        let record = self.record(previous);
        let unqueued = record[c::HAS_QUEUE_KEY] == 0 && record[c::STATUS] == c::RUNNABLE;
        if previous != self.sched() && unqueued {
            self.push_local(previous);
        }
        let syscall = self.word(b::INSIDE_SYSCALL);
        let record = self.record_mut(previous);
        record[c::RUNNING] = 0;
        record[c::INSIDE_SYSCALL] = syscall;
        if !was_idle {
            record[c::ACTIVE_CPU_TIME] += time.saturating_sub(record[c::SWITCH_TIME]);
        }
        let cpu_id = self.here as u64 + 1;
        let record = self.record_mut(next);
        record[c::RUNNING] = 1;
        record[c::CPU_ID] = cpu_id;
        record[c::SWITCH_TIME] = time;
        let record = *record;
        self.set(b::STATE, [KERNEL, USER][record[c::USERSPACE] as usize]);
        self.set(b::CURRENT_CTXT, next as u64);
        self.set(b::INSIDE_SYSCALL, record[c::INSIDE_SYSCALL]);
        self.set(b::BEING_SIGKILLED, record[c::BEING_SIGKILLED]);
    }

    /// Back to the context in charge, where that can be.
    pub fn switch_back(&mut self) -> bool {
        let sched = self.sched();
        let back = self.current() != sched
            && self.update_runnable(sched, true, false) == Runnable::CanSwitch;
        if back {
            self.switch_to(sched);
        }
        back
    }

    /// To the named context, where that can be; nothing is to be done if it is current.
    pub fn direct_switch(&mut self, context: usize) -> bool {
        if self.current() == context {
            return true;
        }
        let in_charge = self.sched() == context;
        let can = self.update_runnable(context, in_charge, false) == Runnable::CanSwitch;
        if can {
            self.switch_to(context);
        }
        can
    }
}
