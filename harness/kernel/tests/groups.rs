//! Groups on the kernel, with answers and words worked out by hand.

use image::{Answer, Group, ROOM, block as b, check, context as c, length, record};
use kernel::oracle;

const CONTEXTS: usize = 6;

fn block(cpu: usize) -> usize {
    record(CONTEXTS) + cpu * b::WORDS
}

/// Two CPUs, idle in 0 and 1. Contexts 2, 3 and 4 are blocked, 3 last on CPU 1; 5 is runnable.
fn machine() -> Vec<u64> {
    let mut image = vec![0; length(2, CONTEXTS)];
    image[0] = 2;
    image[1] = CONTEXTS as u64;
    for number in 0..CONTEXTS {
        image[record(number) + c::DEBUG_ID] = number as u64;
        image[record(number) + c::STATUS] = u64::from((2..=4).contains(&number));
    }
    image[record(3) + c::CPU_ID] = 2;
    for cpu in 0..2 {
        for word in [b::CURRENT_CTXT, b::SCHED_CTXT, b::IDLE_CTXT] {
            image[block(cpu) + word] = cpu as u64;
        }
        image[block(cpu) + b::PRESENT] = 1;
    }
    image
}

fn on(cpu: u64, mask: u64) -> Group {
    Group { cpu, time: 0, mask }
}

fn accepted() {
    let group = on(0, 0b11_1100);
    let mut image = machine();
    assert_eq!(check::group_refusal(&image, &group), 0);
    let answer = oracle::unblock_group(&mut image, &group).unwrap();
    // 5 is listed and counts 0; the mark is that of 3, though 4 and 5 come after it.
    let want = Answer {
        refusal: 0,
        result: 3,
        interrupt: 1,
        rule: 0,
    };
    assert_eq!(answer, want);
    let mut after = machine();
    for number in 2..=4 {
        after[record(number) + c::STATUS] = c::RUNNABLE;
    }
    after[block(0) + b::LOCAL_COUNT] = 3;
    after[block(0) + b::LOCAL_WAKEUP_LIST..][..3].copy_from_slice(&[2, 4, 5]);
    after[block(1) + b::IPI_COUNT] = 1;
    after[block(1) + b::IPI_CONTEXT_WAKEUP_LIST] = 3;
    assert_eq!(image, after);
}

fn refused() {
    let mut image = machine();
    let refusal = |image: &[u64], group| check::group_refusal(image, &group);
    assert_eq!(refusal(&image, on(0, 0)), 0);
    assert_eq!(refusal(&image, on(2, 0)), 5);
    assert_eq!(refusal(&image, on(0, 1 << CONTEXTS)), 5);
    image[record(2) + c::LOCK] = 1;
    assert_eq!(refusal(&image, on(0, 0b100)), 6);
    image[record(4)..][..c::WORDS].fill(0);
    image[record(4) + c::GONE] = 1;
    image[record(4) + c::DEBUG_ID] = 4;
    assert_eq!(refusal(&image, on(0, 0b1_0100)), 5);
    image[record(4) + c::DEBUG_ID] = 5;
    assert_eq!(refusal(&image, on(0, 0b1_0100)), 4);
}

/// Room for one name: the first is woken, the second finds 64. Nothing is changed.
fn no_room() {
    let mut image = machine();
    image[block(0) + b::LOCAL_COUNT] = ROOM as u64 - 1;
    for (mask, refusal) in [(0b100, 0), (0b1_0100, 9), (0b1100, 0)] {
        let mut after = image.clone();
        assert_eq!(check::group_refusal(&image, &on(0, mask)), 0);
        let answer = oracle::unblock_group(&mut after, &on(0, mask)).unwrap();
        assert_eq!(answer.refusal, refusal);
        assert_eq!(after == image, refusal == 9);
    }
}

/// The kernel's CPUs are global: one test at a time.
#[test]
fn groups() {
    accepted();
    refused();
    no_room();
}
