use super::{ENOUGH, humblest, sorts, trials};
use crate::expected::KERNEL;
use image::{SLICE_MAX, block as b, context as c, humblest::Tried, length, record};

/// In a tenth of the cases in which the command wants each sort met.
#[test]
fn no_difference() {
    let _alone = KERNEL.lock();
    assert!(humblest(1, ENOUGH / 10));
}

/// One CPU with V 0 and its idle context in charge; contexts 1 and 2 may run.
fn machine() -> Vec<u64> {
    let mut image = vec![0; length(1, 3)];
    image[..2].copy_from_slice(&[1, 3]);
    for context in 0..3 {
        let at = record(context);
        image[at + c::DEBUG_ID] = context as u64;
        image[at + c::SCHED_AFFINITY] = u64::MAX;
        image[at + c::USERSPACE] = (context > 0).into();
        image[at + c::PRIO] = 20;
    }
    image[record(0) + c::CURRENTLY_SCHEDULED] = 1;
    image[record(3) + b::PRESENT] = 1;
    image[record(3) + b::STEAL_COUNTER] = 1;
    image
}

fn queue(image: &mut [u64], slot: usize, vd: u64, vtime: u64) {
    let block = record(3);
    image[block + b::QUEUE_COUNT] = slot as u64 + 1;
    image[block + b::KEY_VD + slot] = vd;
    image[block + b::KEY_REM_SLICE + slot] = SLICE_MAX;
    image[block + b::KEY_CTXT_ID + slot] = 1;
    image[block + b::ENTRY_VTIME + slot] = vtime;
    image[block + b::ENTRY_WEIGHT + slot] = 1024;
    image[block + b::ENTRY_CONTEXT_REF + slot] = 1;
    image[record(1) + c::IS_ACTIVE] = 1;
    image[block + b::TOTAL_WEIGHT] += 1024;
}

fn working(image: Vec<u64>) -> (u64, u64, Vec<usize>) {
    let tried = Tried {
        cpu: 0,
        time: 1000,
        context: 2,
    };
    let trials = trials(&image, &tried).expect("no difference");
    let answer = trials.answer;
    assert_eq!(answer.refusal, 0);
    (
        answer.found,
        answer.priority,
        sorts::numbers(&trials.working),
    )
}

/// Nobody else: every number. An eligible entry whose deadline is that of priority 20: the numbers
/// whose slice is shorter, and 20 itself if its id is the smaller one.
#[test]
fn an_entry_decides() {
    let _alone = KERNEL.lock();
    assert_eq!(working(machine()), (1, 39, (0..40).collect()));
    let mut image = machine();
    queue(&mut image, 0, 9_437_184, 0);
    assert_eq!(working(image), (1, 19, (0..20).collect()));
    let mut image = machine();
    queue(&mut image, 0, 9_437_185, 0);
    assert_eq!(working(image), (1, 20, (0..21).collect()));
}

/// The ticket's machine: only 36 to 39 work.
#[test]
fn a_gap() {
    let _alone = KERNEL.lock();
    let mut image = machine();
    queue(&mut image, 0, 1000, 10);
    queue(&mut image, 1, 300_000_000, 5);
    image[record(2) + c::VTIME] = 7;
    assert_eq!(working(image), (1, 39, (36..40).collect()));
}
