//! Images for the timing of `switch`, in which the decision does as much as it can: a
//! winner is found late in the queue and the holder is queued again.

use crate::generate::machine::{Cpu, Entry, Machine};
use image::{Call, SLICE_MAX, block as b, context as c};

const V: u64 = 1 << 40;
const TIME: u64 = 1 << 33;
/// Three ticks of 2,250,000 ns.
pub const TURN: u64 = 6_750_000;

pub const CALL: Call = Call {
    operation: 2,
    cpu: 0,
    time: TIME,
    context: 0,
};

pub struct Size {
    pub cpus: usize,
    pub contexts: usize,
    pub entries: usize,
}

impl Size {
    /// Queues of 0, 8, 32 and 63 entries, as far as there are contexts that are neither
    /// idle nor the holder.
    pub fn all() -> Vec<Self> {
        let mut all = Vec::new();
        for (contexts, cpus) in [2, 16, 64]
            .into_iter()
            .flat_map(|n| [1, 2, 4].map(|c| (n, c)))
        {
            let size = |entries| Self {
                cpus,
                contexts,
                entries,
            };
            let room = contexts - size(0).holder() - 1;
            let mut entries = [0, 8, 32, 63].map(|wanted| room.min(wanted)).to_vec();
            entries.dedup();
            all.extend(entries.into_iter().map(size));
        }
        all
    }
    /// Each CPU has its idle context where there are contexts enough.
    fn holder(&self) -> usize {
        self.cpus.min(self.contexts - 1)
    }
}

/// Holder and queue on CPU 0, idle on the others. Every entry but the last has a virtual
/// time later than V and earlier than those before it, so that each is looked at with its
/// lock. The last is eligible. The holder's key comes before all of them.
pub fn last_wins(size: &Size) -> Machine {
    let holder = size.holder();
    let mut machine = empty(size);
    for slot in 0..size.entries {
        let early = if slot + 1 == size.entries {
            size.entries
        } else {
            slot
        };
        let vtime = V + (size.entries - early) as u64;
        queue(&mut machine, 0, holder + 1 + slot, 10 * slot as u64, vtime);
    }
    machine
}

/// The first entry is eligible.
pub fn first_wins(size: &Size) -> Machine {
    let mut machine = last_wins(size);
    machine.cpu[0].queue[0].vtime = V;
    let first = machine.cpu[0].queue[0].context;
    machine.record[first][c::VTIME] = V;
    machine
}

/// Every entry but the last is eligible and may run on other CPUs only, so that each decision looks at
/// all of them.
pub fn pinned(size: &Size) -> Machine {
    let mut machine = last_wins(size);
    let others = size.entries.saturating_sub(1);
    for entry in &mut machine.cpu[0].queue[..others] {
        entry.vtime = V;
        machine.record[entry.context][c::VTIME] = V;
        machine.record[entry.context][c::SCHED_AFFINITY] = 0b1110;
    }
    machine
}

/// No entry is eligible, so that a context that comes in at V wins, with any priority.
pub fn late(size: &Size) -> Machine {
    let mut machine = last_wins(size);
    if let Some(last) = machine.cpu[0].queue.last_mut() {
        last.vtime = V + 1;
        machine.record[last.context][c::VTIME] = V + 1;
    }
    machine
}

/// Eight names on the local list are served before the choice.
pub fn woken(size: &Size) -> Machine {
    let mut machine = last_wins(size);
    let from = size.holder() + 1 + size.entries;
    machine.cpu[0].local = (from..from + 8).collect();
    machine
}

/// Every context has a timer, on these CPUs; none is due.
pub fn timed(size: &Size, cpus: usize) -> Machine {
    let mut machine = last_wins(size);
    for cpu in &mut machine.cpu[..cpus] {
        let later = |context| (TIME + 2 + context as u64, context);
        cpu.timers = (0..size.contexts).map(later).collect();
    }
    machine
}

/// The same, and the holder has stopped with another wake than that of its timer.
pub fn superseded(size: &Size) -> Machine {
    let mut machine = timed(size, 1);
    let holder = &mut machine.record[size.holder()];
    holder[c::STATUS] = c::BLOCKED;
    holder[c::HAS_WAKE] = 1;
    holder[c::WAKE] = TIME + TURN;
    machine
}

/// Idle is in charge, its queue is empty, and it steals from the next CPU's queue.
pub fn stolen(size: &Size) -> Machine {
    let mut machine = last_wins(size);
    let holder = size.holder();
    machine.record[holder][c::CURRENTLY_SCHEDULED] = 0;
    machine.record[holder][c::RUNNING] = 0;
    seat(&mut machine, 0, 0);
    machine.cpu[1].queue = std::mem::take(&mut machine.cpu[0].queue);
    for number in 0..2 {
        let cpu = &mut machine.cpu[number];
        cpu.word[b::STEAL_COUNTER] = 0;
        cpu.word[b::TOTAL_WEIGHT] = 1024 * cpu.queue.len() as u64;
        cpu.word[b::QUEUE_LEN] = cpu.queue.len() as u64;
        cpu.word[b::STEALABLE] = (!cpu.queue.is_empty()).into();
    }
    machine
}

fn empty(size: &Size) -> Machine {
    let holder = size.holder();
    let mut machine = Machine {
        record: (0..size.contexts)
            .map(|number| record(number, number >= holder))
            .collect(),
        cpu: (0..size.cpus).map(|_| cpu()).collect(),
    };
    for number in 0..size.cpus {
        let idle = number.min(holder - 1);
        machine.cpu[number].word[b::IDLE_CTXT] = idle as u64;
        seat(&mut machine, number, idle);
    }
    machine.record[0][c::CURRENTLY_SCHEDULED] = 0;
    machine.record[0][c::RUNNING] = 0;
    seat(&mut machine, 0, holder);
    machine.record[holder][c::VTIME] = V + 1_000_000;
    machine.record[holder][c::IS_ACTIVE] = 1;
    machine.cpu[0].word[b::TOTAL_WEIGHT] = 1024;
    machine
}

fn record(number: usize, userspace: bool) -> [u64; c::WORDS] {
    let mut record = [0; c::WORDS];
    record[c::DEBUG_ID] = 1000 + number as u64;
    // All four CPUs: no word is over the bound of the plain pass.
    record[c::SCHED_AFFINITY] = 15;
    record[c::USERSPACE] = userspace.into();
    record[c::ADDR_SPACE] = userspace.into();
    record[c::PRIO] = 20;
    record[c::VTIME] = V;
    record[c::REM_SLICE] = SLICE_MAX;
    record
}

fn cpu() -> Cpu {
    let mut word = [0; b::SINGLE];
    word[b::PRESENT] = 1;
    word[b::SCHEDULE_TIME] = TIME - TURN;
    // The next decision does not steal.
    word[b::STEAL_COUNTER] = 1;
    word[b::V] = V;
    Cpu::with(word)
}

fn seat(machine: &mut Machine, cpu: usize, context: usize) {
    machine.cpu[cpu].word[b::CURRENT_CTXT] = context as u64;
    machine.cpu[cpu].word[b::SCHED_CTXT] = context as u64;
    machine.record[context][c::CURRENTLY_SCHEDULED] = 1;
    machine.record[context][c::RUNNING] = 1;
}

fn queue(machine: &mut Machine, cpu: usize, context: usize, later: u64, vtime: u64) {
    let vd = V + 1 + later;
    let record = &mut machine.record[context];
    record[c::VTIME] = vtime;
    record[c::VD] = vd;
    record[c::IS_ACTIVE] = 1;
    record[c::HAS_QUEUE_KEY] = 1;
    record[c::QUEUE_KEY_VD] = vd;
    record[c::QUEUE_KEY_REM_SLICE] = SLICE_MAX;
    let cpu = &mut machine.cpu[cpu];
    cpu.queue.push(Entry {
        vd,
        rem_slice: SLICE_MAX,
        vtime,
        weight: 1024,
        context,
    });
    cpu.word[b::QUEUE_LEN] += 1;
    cpu.word[b::STEALABLE] = 1;
    cpu.word[b::TOTAL_WEIGHT] += 1024;
    cpu.word[b::PUBLISHED_WEIGHT] = cpu.word[b::TOTAL_WEIGHT];
}
