//! The humblest priority that still gets the CPU (document 02, No. 12): an own reading of the
//! ticket, over any switch.

use crate::{Answer, Call, ROOM, View, asked::switch, block as b, check, context as c};

/// Priorities are 0 to 39; a larger number is humbler.
pub const PRIORITIES: usize = 40;

#[repr(C)]
#[derive(Clone, Copy, Debug, Default, PartialEq, Eq)]
pub struct Humblest {
    pub refusal: u64,
    pub found: u64,
    pub priority: u64,
}

/// The context that is to get the CPU by a switch at the time.
#[derive(Clone, Copy, Debug, Default, PartialEq, Eq)]
pub struct Tried {
    pub cpu: u64,
    pub time: u64,
    pub context: u64,
}

/// 1 to 4 as for a switch, then 5 for the CPU and the context, or 0.
pub fn refusal(image: &[u64], tried: &Tried) -> u64 {
    let image_only = check::image_refusal(image, tried.time);
    if image_only != 0 {
        return image_only;
    }
    let image = View(image);
    let here = tried.cpu < image.cpus() as u64 && image.present(tried.cpu as usize);
    let known = tried.context < image.contexts() as u64 && !image.gone(tried.context as usize);
    match here && known && !queued(image, tried.context) && !in_charge(image, tried.context) {
        true => 0,
        false => 5,
    }
}

fn present(image: View) -> impl Iterator<Item = usize> {
    (0..image.cpus()).filter(move |cpu| image.present(*cpu))
}

/// On any present CPU.
pub fn queued(image: View, context: u64) -> bool {
    present(image).any(|cpu| {
        let entries = 0..image.block(cpu, b::QUEUE_COUNT) as usize;
        let mut names = entries.map(|slot| image.block(cpu, b::ENTRY_CONTEXT_REF + slot));
        names.any(|name| name == context)
    })
}

/// Of any present CPU.
pub fn in_charge(image: View, context: u64) -> bool {
    present(image).any(|cpu| image.block(cpu, b::SCHED_CTXT) == context)
}

/// The image with the priority stored and the name last on the local list, or nothing where that
/// is full.
pub fn with(image: &[u64], tried: &Tried, priority: u64) -> Option<Vec<u64>> {
    let block = View(image).block_at(tried.cpu as usize);
    let count = image[block + b::LOCAL_COUNT] as usize;
    if count == ROOM {
        return None;
    }
    let mut changed = image.to_vec();
    changed[View(image).context_at(tried.context as usize) + c::PRIO] = priority;
    changed[block + b::LOCAL_WAKEUP_LIST + count] = tried.context;
    changed[block + b::LOCAL_COUNT] = count as u64 + 1;
    Some(changed)
}

/// Whether a switch that gave this answer and left this image put the context in charge.
pub fn works(answer: &Answer, after: &[u64], tried: &Tried) -> bool {
    answer.refusal == 0 && View(after).block(tried.cpu as usize, b::SCHED_CTXT) == tried.context
}

/// Whether each priority works, by a switch that may have no answer.
pub fn working(
    image: &[u64],
    tried: &Tried,
    mut switched: impl FnMut(Vec<u64>, Call) -> Option<(Answer, Vec<u64>)>,
) -> Option<[bool; PRIORITIES]> {
    let mut working = [false; PRIORITIES];
    for (priority, works_here) in working.iter_mut().enumerate() {
        if let Some(changed) = with(image, tried, priority as u64) {
            let (answer, after) = switched(changed, switch(tried.cpu, tried.time))?;
            *works_here = works(&answer, &after, tried);
        }
    }
    Some(working)
}

impl Humblest {
    pub fn refused(refusal: u64) -> Self {
        Self {
            refusal,
            ..Self::default()
        }
    }
    /// The largest number that works.
    pub fn of(working: &[bool; PRIORITIES]) -> Self {
        match working.iter().rposition(|works| *works) {
            Some(priority) => Self {
                refusal: 0,
                found: 1,
                priority: priority as u64,
            },
            None => Self::default(),
        }
    }
    pub fn words(self) -> [u64; 3] {
        [self.refusal, self.found, self.priority]
    }
}

#[cfg(test)]
mod tests;
