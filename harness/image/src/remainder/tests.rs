use super::{carried, converted, left, one_more, shown, source_after, source_before, ticks};
use crate::{
    Call, REMAINDER_MAX, SLICE_MAX, View, block as b, check, context as c, length, record,
};

const CONTEXTS: usize = 2;
const HOLDER: usize = 1;
const BLOCK: usize = record(CONTEXTS);
const ABSENT: usize = BLOCK + b::WORDS;

/// Two CPUs, the second absent. Context 0 is idle; 1 is in charge and current on the first, of
/// weight 1024, with a whole slice.
fn machine(remainder: u64) -> Vec<u64> {
    let mut image = vec![0; length(2, CONTEXTS)];
    (image[0], image[1]) = (2, CONTEXTS as u64);
    image[record(HOLDER) + c::DEBUG_ID] = 1;
    image[record(HOLDER) + c::PRIO] = 20;
    image[record(HOLDER) + c::REM_SLICE] = SLICE_MAX;
    image[BLOCK + b::PRESENT] = 1;
    image[BLOCK + b::CURRENT_CTXT] = HOLDER as u64;
    image[BLOCK + b::SCHED_CTXT] = HOLDER as u64;
    image[BLOCK + b::TOTAL_WEIGHT] = 1024;
    image[BLOCK + b::REMAINDER] = remainder;
    image
}

fn switch(time: u64) -> Call {
    Call {
        operation: 2,
        time,
        ..Call::default()
    }
}

fn weight(_: u64) -> u64 {
    1024
}

/// 2^30 is 477 times 2,250,000 and 491,824.
#[test]
fn conversion() {
    assert_eq!(converted(0, 0), (0, 0));
    assert_eq!(converted(1, 0), (477, 491_824));
    assert_eq!(converted(2_250_000, 0), (1 << 30, 0));
    assert_eq!(converted(2_250_000, 777), (1 << 30, 777));
    assert_eq!(converted(0, REMAINDER_MAX), (0, REMAINDER_MAX));
    // 491,824 and 1,758,176 make a tick, one less does not.
    assert_eq!(converted(1, 1_758_176), (478, 0));
    assert_eq!(converted(1, 1_758_175), (477, REMAINDER_MAX));
    assert_eq!(converted(1, REMAINDER_MAX), (478, 491_823));
}

/// Five turns of 1 ns are 5·2^30 = 2,386·2,250,000 + 209,120.
#[test]
fn five_turns() {
    let turn = |(all, carried), _| {
        let (ticks, left) = converted(1, carried);
        (all + ticks, left)
    };
    assert_eq!((0..5).fold((0, 0), turn), (2386, 209_120));
}

#[test]
fn ranges() {
    let refusal = |image: &[u64]| check::refusal(image, &switch(1));
    assert_eq!(refusal(&machine(0)), 0);
    assert_eq!(refusal(&machine(REMAINDER_MAX)), 0);
    assert_eq!(refusal(&machine(REMAINDER_MAX + 1)), 3);
    assert_eq!(refusal(&machine(u64::MAX)), 3);
    let mut image = machine(0);
    image[ABSENT + b::REMAINDER] = 1;
    assert_eq!(refusal(&image), 3);
}

/// Only a decision leaves another remainder.
#[test]
fn what_is_left() {
    let image = machine(777);
    let image = View(&image);
    assert_eq!(carried(image, &switch(1)), 777);
    assert_eq!(left(image, &switch(1)), 492_601);
    // The clock stands still.
    assert_eq!(left(image, &switch(0)), 777);
    let undue = Call {
        operation: 1,
        ..switch(1)
    };
    assert_eq!((left(image, &undue), one_more(image, &undue)), (777, None));
    let itself = Call {
        operation: 3,
        context: HOLDER as u64,
        ..switch(1)
    };
    assert_eq!(left(image, &itself), 777);
    let mut later = machine(777);
    later[BLOCK + b::SCHEDULE_TIME] = 5;
    assert_eq!(left(View(&later), &switch(4)), 777);
}

/// 3,375,000 ns are one and a half ticks, 1,610,612,736 in their scale, with nothing left over.
/// 1 ns more is 477 and, with 1,758,176 carried, 478 more.
#[test]
fn one_tick_more() {
    let (time, source) = (3_375_001, 1_610_613_213);
    let image = machine(1_758_175);
    assert_eq!(one_more(View(&image), &switch(time)), None);
    assert_eq!(ticks(View(&image), &switch(time)), source);
    let image = machine(1_758_176);
    let view = View(&image);
    assert_eq!(one_more(view, &switch(time)), Some(source));
    assert_eq!(ticks(view, &switch(time)), source + 1);
    // 1,610,613,213 is 1,572,864·1024 + 477: the tick more is none of virtual time.
    let before = source_before(view, &switch(time), weight);
    assert_eq!(before[BLOCK + b::REMAINDER], 0);
    assert_eq!(before[record(HOLDER) + c::REM_SLICE], SLICE_MAX - 1);
    assert_eq!(before[record(HOLDER) + c::VTIME], 0);
    let mut after = image.clone();
    after[record(HOLDER) + c::REM_SLICE] = SLICE_MAX - 1 - source;
    after[BLOCK + b::TOTAL_WEIGHT] = 1;
    assert_eq!(shown(view, &switch(time), View(&after)), Some(source + 1));
    source_after(view, &switch(time), 5, &mut after);
    assert_eq!((after[BLOCK + b::V], after[BLOCK + b::REMAINDER]), (1, 0));
    source_after(view, &switch(time), 9, &mut after);
    assert_eq!(after[BLOCK + b::V], 1);
}
