//! What is odd about a context.

use super::{Look, Queued};
use crate::places::{block, context};
use crate::tables::WEIGHTS;
use crate::value::show_time;
use crate::view::record_at;
use alloc::format;
use alloc::vec::Vec;

impl Look<'_> {
    pub fn context(&mut self, number: usize) {
        let entries = self.entries(number);
        let name = self.name(number);
        let at = record_at(number);
        if let [(one, first, _), (other, second, _), ..] = entries[..] {
            let word = self.view.block_at(other) + block::ENTRY_CONTEXT_REF + second;
            let says = format!("{name} is queued twice: cpu.{one}.queue[{first}] and cpu.{other}.queue[{second}]");
            self.untidy(word, says);
        }
        let charged = self.seated(block::SCHED_CTXT, number);
        let idle = self.seated(block::IDLE_CTXT, number);
        if let ([(cpu, slot, _), ..], true) = (&entries[..], charged.is_some() || idle.is_some()) {
            let what = if charged.is_some() {
                "in charge"
            } else {
                "an idle context"
            };
            let word = self.view.block_at(*cpu) + block::ENTRY_CONTEXT_REF + slot;
            self.untidy(word, format!("{name} is {what} and queued: cpu.{cpu}.queue[{slot}]"));
        }
        let marked = self.view.record(number, context::CURRENTLY_SCHEDULED) == 1;
        if marked != charged.is_some() {
            let says = match charged {
                Some(cpu) => format!("{name} is in charge of CPU {cpu}, and its currently_scheduled is 0"),
                None => format!("{name} is in charge of no CPU, and its currently_scheduled is 1"),
            };
            self.untidy(at + context::CURRENTLY_SCHEDULED, says);
        }
        if self.view.gone(number) {
            return;
        }
        self.agrees(number, entries.first());
        self.live(number, &entries, charged, idle);
    }

    /// A live context's key and times are those of its entry.
    fn agrees(&mut self, number: usize, entry: Option<&Queued>) {
        let at = record_at(number);
        let name = self.name(number);
        let Some((cpu, slot, _)) = entry else {
            if self.view.record(number, context::HAS_QUEUE_KEY) == 1 {
                self.untidy(
                    at + context::HAS_QUEUE_KEY,
                    format!("{name} has a queue key and is queued nowhere"),
                );
            }
            return;
        };
        if self.view.record(number, context::HAS_QUEUE_KEY) == 0 {
            let says = format!("{name} is queued at cpu.{cpu}.queue[{slot}], and its has_queue_key is 0");
            self.untidy(at + context::HAS_QUEUE_KEY, says);
            return;
        }
        let pairs = [
            (context::QUEUE_KEY_VD, block::KEY_VD),
            (context::QUEUE_KEY_REM_SLICE, block::KEY_REM_SLICE),
            (context::VD, block::KEY_VD),
            (context::REM_SLICE, block::KEY_REM_SLICE),
            (context::VTIME, block::ENTRY_VTIME),
        ];
        for (word, column) in pairs {
            let other = self.view.block_at(*cpu) + column + slot;
            let (own, queued) = (self.view.record(number, word), self.view.words()[other]);
            if own != queued {
                let words = self.view.words();
                let says = format!(
                    "{} is {own}, and {} is {queued}: a queued context agrees with its entry",
                    self.labels.label(words, at + word),
                    self.labels.label(words, other)
                );
                self.untidy(at + word, says);
            }
        }
        self.entry_weight(number, *cpu, *slot);
    }

    fn entry_weight(&mut self, number: usize, cpu: usize, slot: usize) {
        let prio = self.view.record(number, context::PRIO) as usize;
        let weight = WEIGHTS.get(prio).copied().unwrap_or(0);
        let stored = self.view.block_at(cpu) + block::ENTRY_WEIGHT + slot;
        if self.view.words()[stored] != weight {
            let name = self.name(number);
            let is = self.labels.is(self.view.words(), stored);
            self.odd(stored, format!("{is}, and the weight of {name}'s priority is {weight}"));
        }
    }

    /// Where a live context can go from here.
    fn live(&mut self, number: usize, entries: &[Queued], charged: Option<usize>, idle: Option<usize>) {
        let word = |word| self.view.record(number, word);
        let name = self.name(number);
        let current = self.seated(block::CURRENT_CTXT, number);
        let mut odd = Vec::new();
        if (word(context::RUNNING) == 1) != current.is_some() {
            let says = match current {
                Some(cpu) => format!("{name} is current on CPU {cpu}, and its running is 0"),
                None => format!("{name} is current nowhere, and its running is 1: it can run on no CPU"),
            };
            odd.push((context::RUNNING, says));
        }
        let mask = word(context::SCHED_AFFINITY);
        if idle.is_none() && !self.view.present_cpus().any(|cpu| mask >> cpu & 1 == 1) {
            let says = format!("{name} may run nowhere: its sched_affinity has no CPU that is there");
            odd.push((context::SCHED_AFFINITY, says));
        }
        let runnable = word(context::STATUS) == context::RUNNABLE;
        let placed = !entries.is_empty() || charged.is_some() || current.is_some() || idle.is_some();
        if runnable && !placed && !self.listed(number) {
            let says = format!("{name} is Runnable and in no queue, on no list and in charge nowhere: it never runs");
            odd.push((context::STATUS, says));
        }
        if idle.is_some() && !runnable {
            odd.push((context::STATUS, format!("{name} is an idle context and not Runnable")));
        }
        if charged.is_none() && entries.is_empty() && self.sleeps_on(number) {
            let wake = show_time(word(context::WAKE));
            let says = format!("{name} sleeps until {wake} and no CPU has that timer: only a call wakes it");
            odd.push((context::WAKE, says));
        }
        for (word, says) in odd {
            self.odd(record_at(number) + word, says);
        }
    }

    /// Waits for a wake that no timer has.
    fn sleeps_on(&self, number: usize) -> bool {
        let word = |word| self.view.record(number, word);
        let waits = word(context::STATUS) == context::BLOCKED && word(context::HAS_WAKE) == 1;
        let mut timers = self.view.present_cpus().flat_map(|cpu| self.view.timers(cpu));
        waits && !timers.any(|timer| timer == (word(context::WAKE), number as u64))
    }

    fn listed(&self, number: usize) -> bool {
        let lists = [
            (block::LOCAL_COUNT, block::LOCAL_WAKEUP_LIST),
            (block::IPI_COUNT, block::IPI_CONTEXT_WAKEUP_LIST),
        ];
        self.view.present_cpus().any(|cpu| {
            lists.iter().any(|(count, list)| {
                let used = 0..self.view.used(cpu, *count);
                used.into_iter()
                    .any(|slot| self.view.block(cpu, list + slot) == number as u64)
            })
        })
    }
}
