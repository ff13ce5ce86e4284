//! That the generator meets each refusal and each sort of call often enough.

use super::{Boards, CALLS, Run, Tally, tally::SORTS};

fn tally(runs: usize) -> Tally {
    let mut boards = Boards::new(1);
    let mut tally = Tally::default();
    for _ in 0..runs {
        let mut run = Run::new(&mut boards);
        assert!((0..CALLS).all(|_| run.step(&mut boards, &mut tally)));
        assert!(run.ended(&mut tally));
    }
    tally
}

/// Of 60,000 calls, in about as many of which a cue is added as one is asked for.
#[test]
fn none_is_rare() {
    let tally = tally(1000);
    let [adding, asking] = tally.refusals;
    for (refusal, least) in [(0, 5000), (1, 400), (10, 1000), (11, 1000), (12, 3000)] {
        assert!(adding[refusal] >= least, "{refusal} when adding");
    }
    let asked = [
        (0, 10_000),
        (1, 100),
        (2, 10),
        (3, 500),
        (4, 30),
        (5, 1000),
        (6, 500),
        (9, 100),
        (10, 500),
        (11, 300),
    ];
    for (refusal, least) in asked {
        assert!(asking[refusal] >= least, "{refusal} when asking");
    }
    // Adding knows no image; 7 and 8 are of decisions, and only adding finds a board full.
    assert_eq!(adding[2..10], [0; 8]);
    assert_eq!([asking[7], asking[8], asking[12]], [0; 3]);
    for (name, met) in SORTS.iter().zip(tally.sorts) {
        assert!(met >= 20, "{name}: {met}");
    }
    assert!(tally.runs >= 200 && tally.handed >= 1500);
}
