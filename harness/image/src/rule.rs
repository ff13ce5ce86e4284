//! The rule behind a decision on a tidy machine (document 02, No. 3): an own reading of its
//! table in document 01's words. Who waits is asked of all entries at once; there is no scan
//! that takes locks or ends early.

use crate::{
    Call, SLICE_MAX, View, block as b, context as c, remainder,
    served::{serves_own, stole, wakeups},
    tidy,
};
use std::cmp::Reverse;

/// Whether the reading speaks of this decision: the machine is tidy, and no wake-up served here
/// names a context that is queued on another CPU, as demand 3 has it.
pub fn judges(before: View, call: &Call) -> bool {
    tidy::holds(before) && serves_own(before, call)
}

/// The rule of an accepted decision that it judges; `weight` is that of a priority.
pub fn judged(before: View, call: &Call, after: View, weight: fn(u64) -> u64) -> u64 {
    let moment = Moment::new(before, call, weight);
    let ready: Vec<&Entry> = moment.queue.iter().filter(|e| moment.ready(e)).collect();
    let eligible = |vtime: u64| vtime <= moment.v;
    let first = ready.iter().find(|entry| eligible(entry.vtime));
    // The first in key order with the least vtime.
    let least = ready.iter().min_by_key(|entry| entry.vtime);
    match (first, moment.holder) {
        (Some(entry), Some(holder)) if eligible(holder.vtime) && holder.vd < entry.vd => 2,
        (Some(entry), Some(holder))
            if eligible(holder.vtime)
                && holder.vd == entry.vd
                && holder.rem_slice > entry.rem_slice =>
        {
            3
        }
        (Some(_), _) => 1,
        (None, Some(holder)) if eligible(holder.vtime) => 4,
        (None, Some(holder)) => match least {
            Some(entry) if entry.vtime < holder.vtime && holder.vd <= entry.vd => 6,
            Some(entry) if entry.vtime < holder.vtime => 7,
            _ => 5,
        },
        (None, None) if !ready.is_empty() => 7,
        (None, None) if stole(before, call.cpu as usize, after) => 8,
        (None, None) => 9,
    }
}

/// An entry here.
struct Entry {
    vd: u64,
    rem_slice: u64,
    vtime: u64,
    context: u64,
}

/// A runnable holder after its charge.
#[derive(Clone, Copy)]
struct Holder {
    vd: u64,
    rem_slice: u64,
    vtime: u64,
}

/// After wake-ups and charging.
struct Moment<'a> {
    call: &'a Call,
    records: Vec<[u64; c::WORDS]>,
    current: u64,
    sched: u64,
    idle: u64,
    v: u64,
    /// By their keys.
    queue: Vec<Entry>,
    holder: Option<Holder>,
}

impl<'a> Moment<'a> {
    fn new(image: View, call: &'a Call, weight: fn(u64) -> u64) -> Self {
        let at = |word| image.block(call.cpu as usize, word);
        let record = |number| std::array::from_fn(|word| image.context(number, word));
        let entry = |slot| Entry {
            vd: at(b::KEY_VD + slot),
            rem_slice: at(b::KEY_REM_SLICE + slot),
            vtime: at(b::ENTRY_VTIME + slot),
            context: at(b::ENTRY_CONTEXT_REF + slot),
        };
        let mut moment = Self {
            call,
            records: (0..image.contexts()).map(record).collect(),
            current: at(b::CURRENT_CTXT),
            sched: at(b::SCHED_CTXT),
            idle: at(b::IDLE_CTXT),
            v: at(b::V),
            queue: (0..at(b::QUEUE_COUNT) as usize).map(entry).collect(),
            holder: None,
        };
        for (wake, context) in wakeups(image, call) {
            moment.wake_up(wake, context, weight);
        }
        let ids: Vec<u64> = moment.records.iter().map(|r| r[c::DEBUG_ID]).collect();
        let key = |e: &Entry| (e.vd, Reverse(e.rem_slice), ids[e.context as usize]);
        moment.queue.sort_by_key(key);
        let elapsed = remainder::elapsed(image, call);
        moment.holder = moment.charged(elapsed, remainder::ticks(image, call), weight);
        moment
    }

    /// A timer's context stops waiting; whoever can be queued then is, with a new slice.
    fn wake_up(&mut self, wake: Option<u64>, context: u64, weight: fn(u64) -> u64) {
        let record = &mut self.records[context as usize];
        if context == self.sched || record[c::GONE] == 1 || record[c::LOCK] != 0 {
            return;
        }
        let waits = record[c::STATUS] == c::BLOCKED && record[c::HAS_WAKE] == 1;
        if waits && wake == Some(record[c::WAKE]) {
            record[c::STATUS] = c::RUNNABLE;
            record[c::HAS_WAKE] = 0;
        }
        let runs = record[c::RUNNING] == 1 && context != self.current;
        let enters = record[c::STATUS] == c::RUNNABLE
            && record[c::CURRENTLY_SCHEDULED] == 0
            && record[c::USERSPACE] == 1
            && !runs;
        if enters {
            record[c::VTIME] = record[c::VTIME].max(self.v);
            let vtime = record[c::VTIME];
            self.queue.retain(|entry| entry.context != context);
            self.queue.push(Entry {
                vd: vtime + SLICE_MAX / weight(record[c::PRIO]),
                rem_slice: SLICE_MAX,
                vtime,
                context,
            });
        }
    }

    /// Nobody if it is idle or not runnable.
    fn charged(&self, elapsed: u64, ticks: u64, weight: fn(u64) -> u64) -> Option<Holder> {
        let record = &self.records[self.sched as usize];
        if self.sched == self.idle || record[c::STATUS] != c::RUNNABLE {
            return None;
        }
        let weight = weight(record[c::PRIO]);
        let left = record[c::REM_SLICE].saturating_sub(ticks);
        let mut vtime = record[c::VTIME] + ticks / weight;
        vtime = vtime.max(self.v);
        // Less than half of three timer ticks is a yield, which gives the rest away.
        let yields = 2 * elapsed < 3 * 2_250_000;
        if yields {
            vtime += left / weight;
        }
        Some(match yields || left == 0 {
            true => Holder {
                vd: vtime + SLICE_MAX / weight,
                rem_slice: SLICE_MAX,
                vtime,
            },
            false => Holder {
                vd: record[c::VD],
                rem_slice: left,
                vtime,
            },
        })
    }

    fn ready(&self, entry: &Entry) -> bool {
        let record = &self.records[entry.context as usize];
        let awake = match record[c::STATUS] {
            c::RUNNABLE => true,
            c::BLOCKED => record[c::HAS_WAKE] == 1 && record[c::WAKE] <= self.call.time,
            _ => false,
        };
        record[c::GONE] == 0
            && entry.context != self.idle
            && entry.context != self.sched
            && record[c::LOCK] == 0
            && record[c::ADDR_SPACE] != 2
            && (record[c::RUNNING] == 0 || entry.context == self.current)
            && record[c::CURRENTLY_SCHEDULED] == 0
            && record[c::SCHED_AFFINITY] >> self.call.cpu & 1 == 1
            && awake
    }
}

#[cfg(test)]
mod tests;
