//! Contexts of every sort that are to get a CPU, on the machines of the other cases.

mod machines;

use super::rng::Rng;
use image::{ROOM, View, block as b, context as c, humblest, humblest::Tried};

pub const SORTS: [&str; 9] = [
    "a context ready to run",
    "a context as it is",
    "a queued context",
    "a context in charge",
    "a context that is gone",
    "a context not below N",
    "the CPU's own idle context",
    "a soft-blocked context",
    "a locked context",
];

pub const MACHINES: [&str; 8] = [
    "a machine as it is",
    "an entry near a priority's deadline",
    "another context queued twice",
    "a full local list",
    "room for one name on the local list",
    "a locked CPU",
    "a turn over 2^52 - 1",
    "a full queue",
];

/// The machines on which priorities matter most.
pub const NEAR: usize = 1;

/// Makes the machine one of the sort, and picks the context; the image passes rows 1 to 4.
pub fn tried(rng: &mut Rng, image: &mut [u64], sort: usize, machine: usize, tried: &mut Tried) {
    let view = View(image);
    let here = (tried.cpu as usize).min(view.cpus() - 1);
    let any = |rng: &mut Rng, fits: &dyn Fn(u64) -> bool| {
        let found: Vec<u64> = (0..view.contexts() as u64).filter(|x| fits(*x)).collect();
        match found.is_empty() {
            true => rng.below(view.contexts()) as u64,
            false => rng.pick(&found),
        }
    };
    let free = |x: u64| {
        !view.gone(x as usize) && !humblest::queued(view, x) && !humblest::in_charge(view, x)
    };
    let idle = view.block(here, b::IDLE_CTXT);
    tried.context = match sort {
        2 => any(rng, &|x| humblest::queued(view, x)),
        3 => any(rng, &|x| humblest::in_charge(view, x)),
        4 => any(rng, &|x| view.gone(x as usize)),
        5 => match rng.below(4) {
            0 => (1 << 32) + rng.below(view.contexts()) as u64,
            1 => u64::MAX,
            _ => view.contexts() as u64 + rng.pick(&[0, 1]),
        },
        6 => idle,
        _ => any(rng, &|x| free(x) && x != idle),
    };
    if !view.present(here) {
        return;
    }
    if tried.context < view.contexts() as u64 && free(tried.context) {
        make(rng, image, sort, here, tried.context as usize);
    }
    let block = View(image).block_at(here);
    match machine {
        NEAR => machines::near(rng, image, here, tried.context),
        2 => machines::twice(rng, image, here, tried.context),
        3 => image[block + b::LOCAL_COUNT] = ROOM as u64,
        4 => image[block + b::LOCAL_COUNT] = ROOM as u64 - 1,
        5 => machines::lock(rng, image, here),
        6 => tried.time = image[block + b::SCHEDULE_TIME] + (1 << 52),
        7 => machines::fill(rng, image, here, tried.context),
        _ => {}
    }
    let count = image[block + b::LOCAL_COUNT] as usize;
    image[block + b::LOCAL_WAKEUP_LIST + count..block + b::LOCAL_WAKEUP_LIST + ROOM].fill(0);
}

fn make(rng: &mut Rng, image: &mut [u64], sort: usize, here: usize, context: usize) {
    let v = View(image).block(here, b::V);
    let at = View(image).context_at(context);
    let record = &mut image[at..at + c::WORDS];
    if matches!(sort, 0 | 7 | 8) {
        for word in [c::STATUS, c::RUNNING, c::CURRENTLY_SCHEDULED, c::LOCK] {
            record[word] = 0;
        }
        record[c::USERSPACE] = 1;
        record[c::SCHED_AFFINITY] = u64::MAX;
        record[c::ADDR_SPACE] = record[c::ADDR_SPACE].min(1);
        record[c::VTIME] = match rng.below(3) {
            0 => v / 2,
            1 => v,
            _ => v + rng.pick(&[1, 7, 477, 9_437_184]),
        };
    }
    if sort == 7 {
        record[c::STATUS] = c::BLOCKED;
    }
    if sort == 8 {
        record[c::LOCK] = rng.pick(&[1, 2]);
    }
}
