//! Stealing: each other CPU in its turn, round from the next; a flag says when it is enough.

use super::{
    choice::Choice,
    lists::{Entry, by_rank, leave_out},
    machine::Cpu,
    state::{State, with_new_key, without_key},
};
use crate::{block as b, context as c};

const INTERVAL: u64 = 16;
const IDLE_INTERVAL: u64 = 2;
const THRESHOLD: usize = 2;
const MAX_STEAL: usize = 2;

impl State {
    /// Whether there is a winner whom stealing found.
    pub fn steal(&mut self, choice: &mut Choice, runs: bool) -> bool {
        let alone = self.is_idle() && choice.winner.is_none();
        let interval = if alone { IDLE_INTERVAL } else { INTERVAL };
        let counter = self.word(b::STEAL_COUNTER);
        self.set(b::STEAL_COUNTER, counter.wrapping_add(1));
        let chosen = choice.winner;
        let mut done = counter % interval != 0;
        let (here, cpus) = (self.here, self.machine.cpus.len());
        for target in (1..cpus).map(|i| (here + i) % cpus) {
            if !done && self.can_steal_from(&self.machine.cpus[target]) {
                done = self.steal_from(target, choice, runs);
            }
        }
        choice.winner != chosen
    }

    /// The length is tested as it is published, then as it is.
    fn can_steal_from(&self, victim: &Cpu) -> bool {
        let load = self.cpu().queue.len() + usize::from(!self.is_idle());
        let enough = |length: usize| length + 1 >= load + THRESHOLD;
        victim.word[b::PRESENT] == 1
            && victim.word[b::STEALABLE] == 1
            && victim.word[b::QUEUE_LOCKED] == 0
            && enough(victim.word[b::QUEUE_LEN] as usize)
            && enough(victim.queue.len())
    }

    /// Of the victim's entries, each in its turn, as many as are wanted.
    fn candidates(&self, target: usize, choice: &Choice) -> Vec<Entry> {
        let queue = &self.machine.cpus[target].queue;
        let extra = queue.len().saturating_sub(self.cpu().queue.len());
        let want = (extra / 2).clamp(1, MAX_STEAL);
        let mut got: Vec<Entry> = Vec::new();
        for entry in by_rank(queue) {
            let taken = got.iter().any(|other| other.context == entry.context);
            if got.len() < want && !taken && self.can_be_stolen(entry.context, choice) {
                got.push(entry);
            }
        }
        got
    }

    /// Nobody whose lock this decision holds.
    fn can_be_stolen(&self, context: usize, choice: &Choice) -> bool {
        let record = self.record(context);
        let held = [Some(self.sched()), choice.winner, choice.locked];
        record[c::GONE] == 0
            && record[c::LOCK] == 0
            && !held.contains(&Some(context))
            && record[c::SCHED_AFFINITY] >> self.here & 1 == 1
            && record[c::STATUS] == c::RUNNABLE
            && record[c::RUNNING] == 0
            && record[c::CURRENTLY_SCHEDULED] == 0
            && record[c::ADDR_SPACE] != 2
    }

    fn steal_from(&mut self, target: usize, choice: &mut Choice, runs: bool) -> bool {
        let candidates = self.candidates(target, choice);
        for entry in &candidates {
            self.move_entry(target, entry, choice, runs);
        }
        if candidates.is_empty() {
            return false;
        }
        publish(self.cpu_mut());
        let victim = &mut self.machine.cpus[target];
        publish(victim);
        victim.word[b::STEALABLE] = (!victim.queue.is_empty()).into();
        true
    }

    /// The entry and its weight leave the victim; the first of them wins where nobody else runs.
    fn move_entry(&mut self, target: usize, entry: &Entry, choice: &mut Choice, runs: bool) {
        let (here, context) = (self.here, entry.context);
        let victim = &mut self.machine.cpus[target];
        leave_out(&mut victim.queue, entry.key);
        let weight = &mut victim.word[b::TOTAL_WEIGHT];
        *weight = weight.saturating_sub(entry.weight);
        let there = victim.word[b::V];
        let v = self.machine.cpus[here].word[b::V];
        self.machine.cpus[here].word[b::TOTAL_WEIGHT] += entry.weight;
        let record = self.record_mut(context);
        without_key(record);
        // As far from V here as it was from V there.
        record[c::VTIME] = (v + record[c::VTIME]).saturating_sub(there);
        record[c::VD] = record[c::VTIME] + record[c::REM_SLICE] / entry.weight;
        if choice.winner.is_none() && !runs {
            choice.winner = Some(context);
            return;
        }
        let (key, vtime) = (with_new_key(record), record[c::VTIME]);
        self.insert_entry(Entry {
            key,
            vtime,
            weight: entry.weight,
            context,
        });
    }
}

/// What other CPUs read.
fn publish(cpu: &mut Cpu) {
    cpu.word[b::QUEUE_LEN] = cpu.queue.len() as u64;
    cpu.word[b::PUBLISHED_WEIGHT] = cpu.word[b::TOTAL_WEIGHT];
}
