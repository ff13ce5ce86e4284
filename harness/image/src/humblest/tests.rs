use super::{Humblest, PRIORITIES, Tried, refusal, with, working, works};
use crate::{Answer, ROOM, View, block as b, context as c, length, record};

const TRIED: Tried = Tried {
    cpu: 0,
    time: 5,
    context: 2,
};

/// Two CPUs with contexts 0 and 1 idle and in charge, 2 and 3 free, 4 gone.
fn image() -> Vec<u64> {
    let mut image = vec![0; length(2, 5)];
    image[..2].copy_from_slice(&[2, 5]);
    for context in 0..5 {
        image[record(context) + c::DEBUG_ID] = context as u64;
    }
    image[record(4) + c::GONE] = 1;
    for cpu in 0..2 {
        let block = View(&image).block_at(cpu);
        image[block + b::PRESENT] = 1;
        for seat in [b::CURRENT_CTXT, b::SCHED_CTXT, b::IDLE_CTXT] {
            image[block + seat] = cpu as u64;
        }
    }
    image
}

fn of(image: &[u64], context: u64) -> u64 {
    refusal(image, &Tried { context, ..TRIED })
}

#[test]
fn who_may_be_tried() {
    let mut image = image();
    let [first, second] = [0, 1].map(|cpu| View(&image).block_at(cpu));
    assert_eq!(
        [0, 1, 2, 3, 4, 5].map(|context| of(&image, context)),
        [5, 5, 0, 0, 5, 5]
    );
    assert_eq!(refusal(&image, &Tried { cpu: 2, ..TRIED }), 5);
    assert_eq!(
        refusal(
            &image,
            &Tried {
                time: 1 << 62,
                ..TRIED
            }
        ),
        3
    );
    assert_eq!(refusal(&image[..9], &TRIED), 2);
    // The idle context of a CPU where another is in charge.
    image[first + b::SCHED_CTXT] = 3;
    assert_eq!([0, 3].map(|context| of(&image, context)), [0, 5]);
    // Queued on the other CPU.
    image[second + b::QUEUE_COUNT] = 1;
    image[second + b::KEY_CTXT_ID] = 2;
    image[second + b::ENTRY_WEIGHT] = 15;
    image[second + b::ENTRY_CONTEXT_REF] = 2;
    assert_eq!(of(&image, 2), 5);
    // An absent CPU has nobody in charge and nothing queued.
    image[second..].fill(0);
    assert_eq!([1, 2].map(|context| of(&image, context)), [0, 0]);
    assert_eq!(refusal(&image, &Tried { cpu: 1, ..TRIED }), 5);
}

#[test]
fn what_is_changed() {
    let mut image = image();
    let block = View(&image).block_at(0);
    image[block + b::LOCAL_COUNT] = 2;
    let changed = with(&image, &TRIED, 7).unwrap();
    let differ: Vec<(usize, u64)> = (0..image.len())
        .filter(|place| image[*place] != changed[*place])
        .map(|place| (place, changed[place]))
        .collect();
    let list = block + b::LOCAL_WAKEUP_LIST;
    assert_eq!(
        differ,
        [
            (record(2) + c::PRIO, 7),
            (block + b::LOCAL_COUNT, 3),
            (list + 2, 2)
        ]
    );
    image[block + b::LOCAL_COUNT] = ROOM as u64;
    assert_eq!(with(&image, &TRIED, 7), None);
    assert_eq!(
        working(&image, &TRIED, |_, _| None),
        Some([false; PRIORITIES])
    );
}

/// A switch that puts the context in charge for these priorities only.
#[test]
fn the_largest_that_works() {
    let image = image();
    let by = |wins: fn(u64) -> bool| {
        let found = working(&image, &TRIED, |mut changed, call| {
            assert_eq!((call.operation, call.cpu, call.time), (2, 0, 5));
            let block = View(&changed).block_at(0);
            let wins = wins(changed[record(2) + c::PRIO]);
            changed[block + b::SCHED_CTXT] = if wins { 2 } else { 3 };
            Some((Answer::default(), changed))
        });
        Humblest::of(&found.unwrap()).words()
    };
    assert_eq!(by(|_| true), [0, 1, 39]);
    assert_eq!(by(|_| false), [0, 0, 0]);
    assert_eq!(by(|priority| priority == 0), [0, 1, 0]);
    assert_eq!(by(|priority| priority % 7 == 5), [0, 1, 33]);
    let mut after = image.clone();
    after[View(&image).block_at(0) + b::SCHED_CTXT] = 2;
    assert!(works(&Answer::default(), &after, &TRIED));
    assert!(!works(&Answer::refused(6), &after, &TRIED));
}
