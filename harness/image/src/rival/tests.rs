use super::{CHOICES, Choice, Game, Play, refusal, round};
use crate::{Answer, Call, View, block as b, context as c, length, record};

const PLAY: Play = Play {
    cpu: 0,
    time: 100,
    writer: 1,
    rival: 2,
    rounds: 1,
};

/// One CPU, its idle context 0, the writer 1, the rival 2, and 3 gone.
fn image(in_charge: u64) -> Vec<u64> {
    let mut image = vec![0; length(1, 4)];
    image[..2].copy_from_slice(&[1, 4]);
    for context in 0..4 {
        image[record(context) + c::DEBUG_ID] = context as u64;
    }
    image[record(3) + c::GONE] = 1;
    image[record(4) + b::PRESENT] = 1;
    image[record(4) + b::SCHED_CTXT] = in_charge;
    image[record(4) + b::CURRENT_CTXT] = in_charge;
    image[record(4) + b::SCHEDULE_TIME] = 100;
    image
}

/// A machine simple enough for a game by hand: who goes on hands over to the other party, the idle
/// context to the writer; who yields stays; after a block the idle context comes. `yields` says
/// whether a switch after a yield is accepted.
fn toy(yields: bool) -> impl Fn(&[u64], Call) -> (Answer, Vec<u64>) {
    move |image, call| {
        let mut after = image.to_vec();
        let block = record(4);
        let holder = image[block + b::SCHED_CTXT];
        let begun = image[block + b::SCHEDULE_TIME];
        let status = record(holder as usize) + c::STATUS;
        if call.operation == 6 {
            assert_eq!((call.context, call.time), (holder, begun));
            assert_eq!(image[record(holder as usize) + c::HAS_WAKE], 1);
            assert_eq!(image[record(holder as usize) + c::WAKE], begun + 4_500_000);
            after[status] = c::BLOCKED;
            return (Answer::default(), after);
        }
        assert_eq!(call.operation, 2);
        let next = match (call.time - begun, image[status]) {
            (6_750_000, c::RUNNABLE) => [1, 2, 1][holder as usize],
            (1_000_000, c::RUNNABLE) if !yields => return (Answer::refused(9), image.to_vec()),
            (1_000_000, c::RUNNABLE) => holder,
            (1_000_000, c::BLOCKED) => 0,
            other => panic!("no such switch: {other:?}"),
        };
        after[status] = c::RUNNABLE;
        after[block + b::SCHED_CTXT] = next;
        after[block + b::SCHEDULE_TIME] = call.time;
        (Answer::default(), after)
    }
}

fn game(in_charge: u64, rounds: u64, yields: bool) -> [u64; 3] {
    let (image, play) = (image(in_charge), Play { rounds, ..PLAY });
    let game = Game::of(&image, &play, toy(yields));
    assert_eq!(game, Game::by_table(&image, &play, toy(yields)));
    game.words()
}

#[test]
fn by_hand() {
    // The writer stays by a yield. In two rounds: it yields twice, or blocks and the idle context
    // hands over to it; going on, it finds a rival that yields.
    assert_eq!(game(1, 1, true), [0, 1, 2]);
    assert_eq!(game(1, 2, true), [0, 1, 2]);
    // The rival stays by a yield.
    assert_eq!(game(2, 1, true), [0, 0, 0]);
    assert_eq!(game(2, 3, true), [0, 0, 0]);
    // The idle context hands over, and there is no choice to tell.
    assert_eq!(game(0, 1, true), [0, 1, 0]);
    assert_eq!(game(0, 6, true), [0, 1, 0]);
    // No yields: in one round the writer has nothing; in two it blocks.
    assert_eq!(game(1, 1, false), [0, 0, 0]);
    assert_eq!(game(1, 2, false), [0, 1, 3]);
    // A refused branch is lost, and the rival may pick it.
    assert_eq!(game(2, 1, false), [0, 0, 0]);
    assert_eq!(game(0, 2, false), [0, 0, 0]);
}

#[test]
fn refusals() {
    let image = image(1);
    let of = |play: Play| refusal(&image, &play);
    assert_eq!(of(PLAY), 0);
    assert_eq!(of(Play { rounds: 6, ..PLAY }), 0);
    assert_eq!(
        [0, 7, u64::MAX].map(|rounds| of(Play { rounds, ..PLAY })),
        [14; 3]
    );
    assert_eq!(of(Play { rival: 1, ..PLAY }), 14);
    assert_eq!(of(Play { rival: 0, ..PLAY }), 0);
    assert_eq!(
        [3, 4, u64::MAX].map(|rival| of(Play { rival, ..PLAY })),
        [5; 3]
    );
    assert_eq!([3, 4].map(|writer| of(Play { writer, ..PLAY })), [5; 2]);
    // 5 comes before 14.
    assert_eq!(
        of(Play {
            cpu: 1,
            rounds: 0,
            ..PLAY
        }),
        5
    );
    assert_eq!(
        of(Play {
            writer: 3,
            rival: 3,
            ..PLAY
        }),
        5
    );
    assert_eq!(
        of(Play {
            time: 1 << 62,
            rounds: 0,
            ..PLAY
        }),
        3
    );
    assert_eq!(refusal(&image[1..], &PLAY), 1);
}

/// When the next round begins.
#[test]
fn rounds_begin_at_the_switch() {
    let image = image(1);
    let next = |choice| {
        let (left, begun) = round(&image, 100, &PLAY, choice, &mut toy(true)).unwrap();
        (View(&left).block(0, b::SCHED_CTXT), begun)
    };
    let expected = [(2, 6_750_100), (1, 1_000_100), (0, 1_000_100)];
    assert_eq!(CHOICES.map(next), expected);
    assert_eq!(
        round(&image, 100, &PLAY, Choice::Yield, &mut toy(false)),
        None
    );
}
