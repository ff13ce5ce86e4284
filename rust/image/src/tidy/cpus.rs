//! What is odd about a CPU.

use super::Look;
use crate::places::{block, context};
use crate::tables::WEIGHTS;
use crate::view::record_at;
use alloc::format;

impl Look<'_> {
    pub fn cpu(&mut self, cpu: usize) {
        let view = self.view;
        let at = view.block_at(cpu);
        let seat = |cpu: usize, word| view.block(cpu, word) as usize;
        let (charged, idle) = (seat(cpu, block::SCHED_CTXT), seat(cpu, block::IDLE_CTXT));
        for other in view.present_cpus().filter(|other| *other < cpu) {
            if seat(other, block::SCHED_CTXT) == charged {
                let says = format!("{} is in charge of CPU {other} and of CPU {cpu}", self.name(charged));
                self.untidy(at + block::SCHED_CTXT, says);
            }
            if seat(other, block::IDLE_CTXT) == idle {
                let says = format!(
                    "{} is the idle context of CPU {other} and of CPU {cpu}",
                    self.name(idle)
                );
                self.untidy(at + block::IDLE_CTXT, says);
            }
        }
        if view.record(idle, context::USERSPACE) == 1 {
            let says = format!("{} is the idle context of CPU {cpu} and of userspace", self.name(idle));
            self.untidy(record_at(idle) + context::USERSPACE, says);
        }
        for other in view.present_cpus().filter(|other| *other != cpu) {
            if seat(other, block::SCHED_CTXT) == idle && seat(other, block::IDLE_CTXT) != idle {
                let says = format!(
                    "{}, the idle context of CPU {cpu}, is in charge of CPU {other}",
                    self.name(idle)
                );
                self.untidy(view.block_at(other) + block::SCHED_CTXT, says);
            }
        }
        self.weights(cpu);
    }

    /// The stored total is the sum, and what is published is true of the queue.
    fn weights(&mut self, cpu: usize) {
        let view = self.view;
        let at = view.block_at(cpu);
        let count = view.used(cpu, block::QUEUE_COUNT);
        let queued: u64 = (0..count).map(|slot| view.block(cpu, block::ENTRY_WEIGHT + slot)).sum();
        let holder = view.block(cpu, block::SCHED_CTXT) as usize;
        let active = view.record(holder, context::IS_ACTIVE) == 1;
        let own = WEIGHTS[view.record(holder, context::PRIO) as usize];
        let sum = queued + if active { own } else { 0 };
        let stored = view.block(cpu, block::TOTAL_WEIGHT);
        if stored != sum {
            let says = format!(
                "cpu.{cpu}.total_weight is {stored}, and the weights of its entries and of who is in charge add up to {sum}"
            );
            self.odd(at + block::TOTAL_WEIGHT, says);
        }
        let published = (view.block(cpu, block::STEALABLE), view.block(cpu, block::QUEUE_LEN));
        if published != (u64::from(count > 0), count as u64) {
            let says = format!(
                "CPU {cpu} publishes stealable {} and queue_len {}, and queue_count is {count}: other CPUs go by what is published",
                published.0, published.1
            );
            self.odd(at + block::STEALABLE, says);
        }
    }
}
