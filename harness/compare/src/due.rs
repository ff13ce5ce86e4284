//! How many decisions had which sorts of due timers, of timers of the holder, and of remainders.

use image::{
    Call, ROOM, View, block as b, context as c,
    decision::{self, Due, Record},
    newest, remainder,
};

/// Sorts of decisions; one may be of several. The indented ones depart from the kernel.
const SORTS: [&str; 21] = [
    "held to the changed build",
    "  due timers that cannot be read",
    "    written by another CPU",
    "    written by another CPU, no longer fits",
    "    of the holder, which runs on",
    "    of the holder, which stops",
    "    of idle in charge",
    "    two and more",
    "    a readable or gone one between two",
    "  a timer of the holder is superseded",
    "    due",
    "    not due, by a later wake",
    "    by an earlier wake",
    "    not due, one of 64: no room in the source",
    "  a remainder is carried",
    "    and makes one tick more",
    "    idle is in charge, or the holder has stopped",
    "    the total weight is 0",
    "a timer of the holder has just its wake",
    "a due timer fits, and is read by another CPU",
    "a due timer is read and no longer fits",
];

#[derive(Default)]
pub struct Sorts([u64; SORTS.len()]);

impl Sorts {
    /// Of a call that rows 1 to 8 let pass.
    pub fn add(&mut self, image: View, call: &Call) {
        if !decision::is_made(image, call) {
            return;
        }
        let due: Vec<Due> = decision::due(image, call).collect();
        let departs = decision::departs(image, call);
        let sorts = [departs]
            .into_iter()
            .chain(unreadable(image, call, &due))
            .chain(newer(image, call))
            .chain(carried(image, call))
            .chain([itself(image, call)])
            .chain(readable(image, &due));
        for (count, holds) in self.0.iter_mut().zip(sorts) {
            *count += u64::from(holds);
        }
    }
    pub fn print(&self) {
        for (name, cases) in SORTS.iter().zip(self.0) {
            let name = match (*name, cfg!(feature = "oracle")) {
                ("held to the changed build", false) => "decisions that depart from the kernel",
                (name, _) => name,
            };
            println!("{name:46} {cases:8}");
        }
    }
}

fn unreadable(image: View, call: &Call, due: &[Due]) -> [bool; 8] {
    let at = |word| image.block(call.cpu as usize, word);
    let any = |record, which: &dyn Fn(&Due) -> bool| {
        due.iter()
            .any(|timer| timer.record == record && which(timer))
    };
    let idle = at(b::SCHED_CTXT) == at(b::IDLE_CTXT);
    let runs_on = image.context(at(b::SCHED_CTXT) as usize, c::STATUS) == c::RUNNABLE;
    let charged = any(Record::InCharge, &|_| true);
    let places: Vec<usize> = (0..due.len()).filter(|n| due[*n].unreadable()).collect();
    let between = match places[..] {
        [first, .., last] => last - first >= places.len(),
        _ => false,
    };
    [
        !places.is_empty(),
        any(Record::Written, &|_| true),
        any(Record::Written, &|timer| !timer.fits),
        charged && !idle && runs_on,
        charged && !idle && !runs_on,
        charged && idle,
        places.len() >= 2,
        between,
    ]
}

/// A timer that is put in is in the set already.
fn itself(image: View, call: &Call) -> bool {
    let put = newest::put_in(image, call);
    put.is_some_and(|put| image.timers(call.cpu as usize).any(|timer| timer == put))
}

fn newer(image: View, call: &Call) -> [bool; 5] {
    let put = newest::put_in(image, call);
    let Some(((wake, _), (old, _))) = put.zip(newest::superseded(image, call)) else {
        return [false; 5];
    };
    let due = old <= call.time + 1;
    let mut stays = image.timers(call.cpu as usize).map(|timer| timer.0);
    let full = image.block(call.cpu as usize, b::TIMERS_COUNT) as usize == ROOM
        && stays.all(|wake| wake > call.time + 1);
    [true, due, !due && old < wake, old > wake, full]
}

fn carried(image: View, call: &Call) -> [bool; 4] {
    let at = |word| image.block(call.cpu as usize, word);
    let status = image.context(at(b::SCHED_CTXT) as usize, c::STATUS);
    let uncharged = at(b::SCHED_CTXT) == at(b::IDLE_CTXT) || status != c::RUNNABLE;
    let carried = remainder::carried(image, call) != 0;
    [
        carried,
        remainder::one_more(image, call).is_some(),
        carried && uncharged,
        carried && at(b::TOTAL_WEIGHT) == 0,
    ]
}

fn readable(image: View, due: &[Due]) -> [bool; 2] {
    let read = |timer: &&Due| {
        timer.record == Record::Readable && image.context(timer.context as usize, c::LOCK) == 1
    };
    let read: Vec<&Due> = due.iter().filter(read).collect();
    [
        read.iter().any(|timer| timer.fits),
        read.iter().any(|timer| !timer.fits),
    ]
}
