//! What a CPU of an image names, taken away and put in.

use crate::generate::{queue, rng::Rng};
use image::{ROOM, SLICE_MAX, View, apart, block as b, context as c, put_timers};

/// Its number among the roles.
pub const QUEUED: usize = 3;
const LISTS: [(usize, usize); 2] = [
    (b::LOCAL_COUNT, b::LOCAL_WAKEUP_LIST),
    (b::IPI_COUNT, b::IPI_CONTEXT_WAKEUP_LIST),
];

/// Each context that both CPUs name stays with one of them; nothing if there is but one idle
/// context for both.
pub fn part(rng: &mut Rng, image: &mut [u64], one: usize, other: usize) -> Option<()> {
    let view = View(image);
    let seat = |cpu, word| view.block(cpu, word);
    if seat(one, b::IDLE_CTXT) == seat(other, b::IDLE_CTXT) {
        let mut live = (0..view.contexts()).filter(|x| !view.gone(*x));
        let idle = live.find(|x| *x as u64 != seat(one, b::IDLE_CTXT))?;
        image[View(image).block_at(other) + b::IDLE_CTXT] = idle as u64;
    }
    for context in apart::shared(View(image), one, other) {
        let is = |cpu, seat| View(image).block(cpu, seat) == context;
        let keeps = |seat| {
            let mut cpus = [one, other].into_iter();
            cpus.find(|cpu| is(*cpu, seat))
        };
        let keeps = keeps(b::IDLE_CTXT).or_else(|| keeps(b::SCHED_CTXT));
        let keeps = keeps.unwrap_or_else(|| rng.pick(&[one, other]));
        leave(image, one + other - keeps, context);
    }
    Some(())
}

/// The CPU names the context no longer, unless it is idle here.
pub fn leave(image: &mut [u64], cpu: usize, context: u64) {
    let block = View(image).block_at(cpu);
    let mut entries = queue::entries(View(image), cpu);
    entries.retain(|entry| entry[5] != context);
    queue::put(image, cpu, entries);
    let mut timers: Vec<(u64, u64)> = View(image).timers(cpu).collect();
    timers.retain(|(_, of)| *of != context);
    put_timers(image, block, &timers);
    for (count, list) in LISTS {
        let (count, list) = (block + count, block + list);
        let names = &image[list..list + image[count] as usize];
        let mut names: Vec<u64> = names.to_vec();
        names.retain(|name| *name != context);
        image[count] = names.len() as u64;
        names.resize(ROOM, 0);
        image[list..list + ROOM].copy_from_slice(&names);
    }
    for seat in [b::CURRENT_CTXT, b::SCHED_CTXT] {
        if image[block + seat] == context {
            image[block + seat] = image[block + b::IDLE_CTXT];
        }
    }
}

/// The CPU names a live context in the role, if there is room.
pub fn name(rng: &mut Rng, image: &mut [u64], cpu: usize, role: usize, context: u64) {
    let block = View(image).block_at(cpu);
    match role {
        0 => image[block + b::CURRENT_CTXT] = context,
        1 => image[block + b::SCHED_CTXT] = context,
        2 => image[block + b::IDLE_CTXT] = context,
        QUEUED => enqueue(rng, image, cpu, context),
        4 => {
            let at = View(image).context_at(context as usize);
            let mut timers: Vec<(u64, u64)> = View(image).timers(cpu).collect();
            timers.push((image[at + c::WAKE], context));
            timers.sort_unstable();
            if timers.len() <= ROOM {
                put_timers(image, block, &timers);
            }
        }
        _ => {
            let (count, list) = LISTS[role - 5];
            let names = image[block + count] as usize;
            if names < ROOM {
                image[block + list + names] = context;
                image[block + count] += 1;
            }
        }
    }
}

/// An entry early enough to win now and then.
fn enqueue(rng: &mut Rng, image: &mut [u64], cpu: usize, context: u64) {
    let v = View(image).block(cpu, b::V);
    let at = View(image).context_at(context as usize);
    let id = image[at + c::DEBUG_ID];
    let vd = v.saturating_sub(rng.pick(&[0, 1_048_576, 1 << 40]));
    image[at + c::HAS_QUEUE_KEY] = 1;
    image[at + c::QUEUE_KEY_VD] = vd;
    image[at + c::QUEUE_KEY_REM_SLICE] = SLICE_MAX;
    let mut entries = queue::entries(View(image), cpu);
    entries.truncate(ROOM - 1);
    entries.push([vd, SLICE_MAX, id, v, 1024, context]);
    queue::put(image, cpu, entries);
}
