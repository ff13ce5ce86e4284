//! The turn that ends: its switch counted, its time kept, and what the holder pays.

use super::{lists::Timer, state::State};
use crate::{SLICE_MAX, block as b, context as c, remainder::converted};

/// A turn of less than half of three ticks gives the rest of the slice away.
const YIELD: u64 = 3 * 2_250_000 / 2;
/// States of a CPU.
const STATE_IDLE: u64 = 0;
const STATE_KERNEL: u64 = 1;

/// What a turn came to.
pub struct Spent {
    pub elapsed: u64,
    pub ticks: u64,
    /// The CPU counted its time as idle.
    pub was_idle: bool,
}

impl State {
    pub fn undue_tick(&mut self) -> bool {
        let ticks = self.word(b::PIT_TICKS) + 1;
        self.set(b::PIT_TICKS, ticks);
        ticks < 3
    }
    pub fn count_switch(&mut self) {
        let (switches, syscall) = (self.word(b::CONTEXT_SWITCHES), self.word(b::INSIDE_SYSCALL));
        self.set(b::CONTEXT_SWITCHES, switches + 1);
        let inside = self.word(b::SYSCALL_SWITCHES) + syscall;
        self.set(b::SYSCALL_SWITCHES, inside);
        self.set(b::PIT_TICKS, 0);
    }
    /// Milliseconds are counted by the CPU's state, and the fraction of a tick is carried.
    pub fn spend(&mut self) -> Spent {
        let elapsed = self.time.saturating_sub(self.word(b::SCHEDULE_TIME));
        let (ticks, left) = converted(elapsed, self.cpu().remainder);
        let state = self.word(b::STATE);
        let counter = match state {
            STATE_IDLE => b::IDLE,
            STATE_KERNEL => b::KERNEL,
            _ => b::USER,
        };
        let counted = self.word(counter) + elapsed / 1_000_000;
        self.set(counter, counted);
        self.set(b::SCHEDULE_TIME, self.time);
        self.cpu_mut().remainder = left;
        Spent {
            elapsed,
            ticks,
            was_idle: state == STATE_IDLE,
        }
    }
    /// Idle pays nothing.
    pub fn charge_holder(&mut self, spent: &Spent) {
        if self.holder_runs() {
            self.charge(spent);
        } else if !self.is_idle() {
            self.stop_holder();
        }
    }
    fn charge(&mut self, spent: &Spent) {
        let (holder, v) = (self.sched(), self.word(b::V));
        let weight = (self.weight)(self.record(holder)[c::PRIO]);
        let record = self.record_mut(holder);
        let left = record[c::REM_SLICE].saturating_sub(spent.ticks);
        let yields = spent.elapsed < YIELD;
        let given_away = if yields { left / weight } else { 0 };
        record[c::VTIME] = (record[c::VTIME] + spent.ticks / weight).max(v) + given_away;
        record[c::REM_SLICE] = left;
        if yields || left == 0 {
            record[c::REM_SLICE] = SLICE_MAX;
            record[c::VD] = record[c::VTIME] + SLICE_MAX / weight;
        }
    }
    /// One that is blocked leaves the weight, and its wake becomes its only timer.
    fn stop_holder(&mut self) {
        let holder = self.sched();
        let record = *self.record(holder);
        if record[c::IS_ACTIVE] == 1 {
            let weight = (self.weight)(record[c::PRIO]);
            let total = self.word(b::TOTAL_WEIGHT).saturating_sub(weight);
            self.set(b::TOTAL_WEIGHT, total);
        }
        self.record_mut(holder)[c::IS_ACTIVE] = 0;
        self.record_mut(holder)[c::REM_SLICE] = 0;
        if record[c::HAS_WAKE] == 1 {
            self.insert_newest_timer(Timer {
                wake: record[c::WAKE],
                context: holder,
            });
        }
    }
}
