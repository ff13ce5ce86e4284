use super::{ENOUGH, game, rival};
use crate::expected::KERNEL;
use image::{
    SLICE_MAX, View, block as b, context as c, length, record,
    rival::{Game, Play},
};

/// In a fifth of the games in which the command wants each sort met.
#[test]
fn no_difference() {
    let _alone = KERNEL.lock();
    assert!(rival(1, ENOUGH / 5));
}

const PLAY: Play = Play {
    cpu: 0,
    time: 10_000_000,
    writer: 1,
    rival: 2,
    rounds: 1,
};

/// One CPU with V 0, idle 0, writer 1 and rival 2, both of priority 20 with a virtual time of 0;
/// one is in charge, since 10,000,000, and the other queued with this deadline.
fn machine(in_charge: usize, vd: u64) -> Vec<u64> {
    let mut image = vec![0; length(1, 3)];
    image[..2].copy_from_slice(&[1, 3]);
    for context in 0..3 {
        let at = record(context);
        image[at + c::DEBUG_ID] = context as u64;
        image[at + c::SCHED_AFFINITY] = u64::MAX;
        image[at + c::USERSPACE] = (context > 0).into();
        image[at + c::PRIO] = 20;
        image[at + c::REM_SLICE] = SLICE_MAX;
        image[at + c::VD] = 9_437_184;
        image[at + c::IS_ACTIVE] = (context > 0).into();
    }
    let (holder, waits) = (record(in_charge), record(3 - in_charge));
    image[holder + c::CURRENTLY_SCHEDULED] = 1;
    image[holder + c::RUNNING] = 1;
    image[waits + c::VD] = vd;
    image[waits + c::HAS_QUEUE_KEY] = 1;
    image[waits + c::QUEUE_KEY_VD] = vd;
    image[waits + c::QUEUE_KEY_REM_SLICE] = SLICE_MAX;
    let block = record(3);
    image[block + b::PRESENT] = 1;
    image[block + b::CURRENT_CTXT] = in_charge as u64;
    image[block + b::SCHED_CTXT] = in_charge as u64;
    image[block + b::SCHEDULE_TIME] = 10_000_000;
    image[block + b::STEAL_COUNTER] = 1;
    image[block + b::TOTAL_WEIGHT] = 2048;
    image[block + b::QUEUE_COUNT] = 1;
    image[block + b::KEY_VD] = vd;
    image[block + b::KEY_REM_SLICE] = SLICE_MAX;
    image[block + b::KEY_CTXT_ID] = 3 - in_charge as u64;
    image[block + b::ENTRY_WEIGHT] = 1024;
    image[block + b::ENTRY_CONTEXT_REF] = 3 - in_charge as u64;
    assert!(image::tidy::holds(View(&image)));
    image
}

fn words(image: &[u64], play: &Play) -> [u64; 3] {
    game(image, play).expect("no difference").words()
}

/// V is 0 and the holder has run, so only the entry is eligible at the switch: whoever is in charge
/// is followed by the other, whatever it chooses.
#[test]
fn one_round() {
    let _alone = KERNEL.lock();
    assert_eq!(words(&machine(1, 9_437_184), &PLAY), [0, 0, 0]);
    assert_eq!(words(&machine(2, 9_437_184), &PLAY), [0, 1, 0]);
}

/// At the last time that an image may name every switch is refused: lost, but no refusal.
#[test]
fn refused_branches_are_lost() {
    let _alone = KERNEL.lock();
    let mut image = machine(2, 9_437_184);
    let time = image::NUMBER_MAX;
    image[record(3) + b::SCHEDULE_TIME] = time;
    let late = Play { time, ..PLAY };
    assert_eq!(words(&image, &late), [0, 0, 0]);
    // A rival that can only be lost by a refused block is not forced out either: its wake would be
    // over the range, the switch of a yield and that of going on would not.
    let time = image::NUMBER_MAX - 6_750_000;
    image[record(3) + b::SCHEDULE_TIME] = time;
    let play = Play { time, ..PLAY };
    assert_eq!(words(&image, &play), [0, 1, 0]);
    let beyond = Play { rounds: 7, ..play };
    assert_eq!(game(&image, &beyond), Some(Game::refused(14)));
}
