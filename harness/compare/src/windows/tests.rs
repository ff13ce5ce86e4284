use super::{ENOUGH, Lent, all, sorts, windows};
use crate::{
    expected::KERNEL,
    generate::{Stream, rng::Rng},
    met::Met,
};

/// No difference, and each sort is met in as many cases as must meet it.
#[test]
fn each_sort_is_met() {
    let _alone = KERNEL.lock();
    assert!(windows(1, ENOUGH));
}

#[test]
fn a_window_is_held_to_its_log() {
    let mut lent = Lent::new(&mut Rng::new(1), 0, 4);
    assert!(lent.logged());
    lent.log = Some(vec![(1, 7)]);
    assert!(!lent.logged());
    lent.words[0] = 1;
    lent.words[1] = 1;
    lent.words[257] = 7;
    assert!(lent.logged());
    // Of a longer log the last records.
    lent.log.as_mut().unwrap().insert(0, (2, 2));
    assert!(!lent.logged());
}

/// One stream alone does not meet them all: the tally is no empty promise.
#[test]
fn a_few_calls_do_not_meet_all() {
    let _alone = KERNEL.lock();
    let mut met = Met::of(&sorts::names());
    assert!(all(Stream::rules(1), 1, 40, &mut met));
    assert!(!met.missing().is_empty());
}
