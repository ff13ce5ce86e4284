//! Groups to wake: the images are those of the other cases, some with more that can be
//! woken or with a list nearly full.

use super::{Case, Stream, rng::Rng};
use image::{Group, ROOM, View, block as b, check, context as c};

pub struct Groups {
    images: Stream,
    rng: Rng,
}

impl Groups {
    pub fn new(seed: u64) -> Self {
        Self {
            images: Stream::new(seed),
            rng: Rng::new(!seed),
        }
    }

    /// The same groups with no remainder anywhere.
    pub fn without_remainders(self) -> Self {
        Self {
            images: self.images.without_remainders(),
            ..self
        }
    }

    pub fn next(&mut self) -> Case<Group> {
        let Case {
            kind,
            mut image,
            call,
            chained,
        } = self.images.next();
        let rng = &mut self.rng;
        let mask = match check::image_refusal(&image, 0) {
            0 => {
                if !chained {
                    prepare(rng, &mut image, call.cpu);
                }
                mask(rng, View(&image))
            }
            // Nobody is looked up in such an image.
            _ => rng.pick(&[0, 1, 6, u64::MAX]),
        };
        let call = Group {
            cpu: call.cpu,
            time: call.time,
            mask,
        };
        Case {
            kind,
            image,
            call,
            chained,
        }
    }

    pub fn answered(&mut self, after: &[u64]) {
        self.images.answered(after);
    }
}

/// More that can be woken, or a list nearly full.
pub fn prepare(rng: &mut Rng, image: &mut [u64], cpu: u64) {
    if rng.once_in(2) {
        make_wakeable(rng, image);
    }
    if rng.once_in(2) {
        let here = (cpu as usize).min(View(image).cpus() - 1);
        let (at, list) = match rng.below(3) {
            0 => (here, 2),
            1 => (rng.below(View(image).cpus()), 2),
            _ => (rng.below(View(image).cpus()), 3),
        };
        fill(rng, image, at, b::COLUMNS[list]);
    }
}

/// Most live contexts blocked, last on any CPU or on one of two.
fn make_wakeable(rng: &mut Rng, image: &mut [u64]) {
    let view = View(image);
    let (cpus, contexts) = (view.cpus(), view.contexts());
    let last = [rng.below(cpus + 1), rng.below(cpus + 1)];
    let anywhere = rng.once_in(2);
    for context in 0..contexts {
        let at = View(image).context_at(context);
        if image[at + c::GONE] == 1 || rng.once_in(8) {
            continue;
        }
        image[at + c::STATUS] = rng.pick(&[
            c::BLOCKED,
            c::BLOCKED,
            c::BLOCKED,
            c::BLOCKED,
            c::RUNNABLE,
            c::STOPPED,
        ]);
        image[at + c::LOCK] = rng.pick(&[0, 0, 0, 0, 0, 0, 0, 1, 2]);
        image[at + c::CPU_ID] = match anywhere {
            true => rng.below(cpus + 1),
            false => rng.pick(&last),
        } as u64;
    }
}

/// A list of a present CPU with room for a few names only.
fn fill(rng: &mut Rng, image: &mut [u64], at: usize, (count, columns): (usize, &[usize])) {
    let view = View(image);
    if !view.present(at) {
        return;
    }
    let (contexts, block) = (view.contexts(), view.block_at(at));
    let to = ROOM - rng.pick(&[0, 1, 1, 2, 2, 3, 4, 6, 8, 12]);
    for slot in image[block + count] as usize..to {
        image[block + columns[0] + slot] = rng.below(contexts) as u64;
    }
    image[block + count] = image[block + count].max(to as u64);
}

/// No name, one, few, a dozen or all that can be named; sometimes others among them.
pub fn mask(rng: &mut Rng, image: View) -> u64 {
    let contexts = 0..image.contexts();
    let locked = |x: &usize| image.context(*x, c::LOCK) != 0;
    let of = |which: &dyn Fn(&usize) -> bool| -> Vec<usize> {
        contexts.clone().filter(|x| which(x)).collect()
    };
    let free = of(&|x| !image.gone(*x) && !locked(x));
    let wanted = match rng.below(10) {
        0 => 0,
        1 => 1,
        2..=5 => rng.within(2, 4),
        6..=8 => rng.within(5, 12),
        _ => 200,
    };
    let mut mask = 0;
    for _ in 0..wanted {
        add(rng, &mut mask, &free);
    }
    let taken = of(&|x| !image.gone(*x) && locked(x));
    let mut absent = of(&|x| image.gone(*x));
    absent.extend(image.contexts()..64);
    let among = rng.below(16);
    if among <= 2 {
        add(rng, &mut mask, &taken);
    }
    if among == 2 || among == 3 {
        add(rng, &mut mask, &absent);
    }
    if among == 4 && rng.once_in(2) {
        mask = rng.next();
    }
    mask
}

/// One of these, if there are any.
fn add(rng: &mut Rng, mask: &mut u64, from: &[usize]) {
    if !from.is_empty() {
        *mask |= 1 << rng.pick(from);
    }
}
