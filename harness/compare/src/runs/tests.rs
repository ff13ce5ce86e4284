use super::{Chain, ENOUGH, runs};
use crate::{expected::KERNEL, port};
use image::{Answer, Call, run};

/// No difference, and each sort is met in as many calls as must meet it.
#[test]
fn each_sort_is_met() {
    let _alone = KERNEL.lock();
    assert!(runs(1, ENOUGH));
}

/// Two words are too few for an image: each call is refused with 1.
fn chain(answers: [Answer; 2]) -> Chain {
    let mut chain = Chain::from(&[0, 0]);
    for answer in answers {
        chain.push(&Call::default(), &answer, vec![0, 0]);
    }
    chain
}

#[test]
fn a_chain_is_held_to_its_answers() {
    let refused = Answer::refused(1);
    assert!(chain([refused; 2]).holds());
    assert!(chain([refused; 2]).holds_in_parts(1));
    let other = chain([refused, Answer::default()]);
    assert_eq!(other.holds(), !port::THERE);
    assert_eq!(other.holds_in_parts(1), !port::THERE);
}

/// Where somebody else wrote in between another chain begins.
#[test]
fn a_chain_ends_where_somebody_wrote() {
    let (call, answer) = (Call::default(), Answer::refused(1));
    let mut chain = Chain::from(&[0, 0]);
    for image in [[0, 0], [0, 0], [1, 0]] {
        assert!(chain.goes_on(&image, &call, &answer, &image));
    }
    assert_eq!((chain.start, chain.calls.len()), (vec![1, 0], 1));
}

#[test]
fn words_of_calls_are_in_their_order() {
    let call = Call {
        operation: 1,
        cpu: 2,
        time: 3,
        context: 4,
    };
    assert_eq!(
        run::words(&[call, Call::default()]),
        [1, 2, 3, 4, 0, 0, 0, 0]
    );
}
