//! The wrapper on the proved archive.

use ronthuyal::words::tables::{OPERATIONS, REFUSALS, WEIGHTS};
use ronthuyal::words::{Call as Words, RULES};
use ronthuyal::{Call, ContextId, Contexts, Cpu, Image, Outcome, Refusal, Rule, Time};

const MOMENT: &str = "
    context idle
    context rival
    context writer wake=1s
    cpu 0 idle_ctxt=idle sched_ctxt=rival schedule_time=993.25ms steal_counter=1
    timer 0 writer";

fn moment() -> Image {
    Image::from_text(MOMENT).unwrap()
}

const CUE: Time = Time::from_millis(1000);

/// The table of weights is the archive's: it adds up that of who is in charge.
#[test]
fn weights() {
    for (priority, weight) in WEIGHTS.into_iter().enumerate() {
        let text = format!("context idle\ncontext a prio={priority}\ncpu 0 idle_ctxt=idle sched_ctxt=a");
        assert_eq!(Image::from_text(&text).unwrap().total_weight(Cpu(0)), Ok(weight));
    }
}

#[test]
fn numbers_are_known() {
    for (number, says) in REFUSALS {
        let refusal = Refusal::new(number).unwrap();
        // Those of operations have names.
        assert!(number > 9 || !matches!(refusal, Refusal::Other(_)), "{number}");
        assert_eq!(refusal.number(), number);
        assert_eq!(refusal.to_string(), format!("refused with {number}: {says}"));
    }
    assert_eq!(Refusal::new(0), None);
    assert_eq!(Refusal::new(77).map(Refusal::number), Some(77));
    for number in 1..RULES.len() as u64 {
        assert_eq!(Rule::new(number).map(|rule| rule as u64), Some(number));
    }
    assert_eq!((Rule::new(0), Rule::new(RULES.len() as u64)), (None, None));
}

/// Each method is the call of its number.
#[test]
fn methods_are_calls() {
    type Method = fn(&mut Image) -> Result<ronthuyal::Done, Refusal>;
    let methods: [Method; 7] = [
        |image| image.tick(Cpu(0), CUE),
        |image| image.switch(Cpu(0), CUE),
        |image| image.direct_switch_to(Cpu(0), CUE, ContextId(2)),
        |image| image.unblock_context(Cpu(0), CUE, ContextId(2)),
        |image| image.drain_ipi_context_wakeups(Cpu(0), CUE),
        |image| image.block(Cpu(0), CUE, ContextId(1)),
        |image| image.hard_block(Cpu(0), CUE, ContextId(1)),
    ];
    assert_eq!(methods.len(), OPERATIONS.len());
    for (number, method) in (1..).zip(methods) {
        let context = if number >= 6 { 1 } else { 2 };
        let (mut one, mut other) = (moment(), moment());
        let call = Words::Operation {
            operation: number,
            cpu: 0,
            time: CUE.as_nanos(),
            context,
        };
        assert_eq!(
            method(&mut one),
            other.call(&Call::from_words(call)),
            "operation {number}"
        );
        assert_eq!(one, other, "operation {number}");
    }
}

#[test]
fn outcomes() {
    let mut image = moment();
    assert_eq!(image.tick(Cpu(0), CUE).unwrap().outcome, Outcome::NotDue);
    assert_eq!(
        image.block(Cpu(0), CUE, ContextId(2)).unwrap().outcome,
        Outcome::WasNotRunnable
    );
    assert_eq!(
        image.unblock_context(Cpu(0), CUE, ContextId(2)).unwrap().outcome,
        Outcome::Unblocked
    );
    assert_eq!(
        image.unblock_context(Cpu(0), CUE, ContextId(2)).unwrap().outcome,
        Outcome::WasNotBlocked
    );
    assert_eq!(
        image.block(Cpu(0), CUE, ContextId(1)).unwrap().outcome,
        Outcome::Blocked
    );
    assert_eq!(
        image.drain_ipi_context_wakeups(Cpu(0), CUE).unwrap().outcome,
        Outcome::Drained
    );
    let group: Contexts = [ContextId(1), ContextId(2)].into_iter().collect();
    assert_eq!(
        image.unblock_group(Cpu(0), CUE, group).unwrap().outcome,
        Outcome::Number(1)
    );
    let done = image.switch(Cpu(0), CUE).unwrap();
    assert_eq!(
        (done.outcome, done.rule),
        (Outcome::Switched, Some(Rule::FirstEligible))
    );
}

/// A refused call leaves every word, and is explained by its own number.
#[test]
fn refused() {
    let text = MOMENT.replace("sched_ctxt=rival", "sched_ctxt=rival queue_locked");
    let mut image = Image::from_text(&text).unwrap();
    let before = image.clone();
    assert_eq!(image.switch(Cpu(0), CUE), Err(Refusal::Locked));
    assert_eq!(image, before);
    assert_eq!(image.explain(&Call::switch(Cpu(0), CUE)).unwrap().refusal, 6);
    assert_eq!(image.explain(&Call::total_weight(Cpu(0))), None);
    assert_eq!(image.explain(&Call::tick(Cpu(3), CUE)).unwrap().refusal, 5);
}

/// Calls of every sort, some of them refused.
fn evening() -> Vec<Call> {
    let (here, nobody) = (Cpu(0), Cpu(9));
    let at = |millis: u64| Time::from_millis(1000 + millis);
    vec![
        Call::switch(here, CUE),
        Call::block(here, at(1), ContextId(1)),
        Call::switch(nobody, at(2)),
        Call::unblock_group(here, at(3), Contexts::from_mask(0b10)),
        Call::total_weight(here),
        Call::tick(here, at(4)),
        Call::from_words(Words::Operation {
            operation: 8,
            cpu: 0,
            time: 0,
            context: 0,
        }),
        Call::switch(here, at(9)),
    ]
}

/// A run is its calls one after the other, groups and sums among them.
#[test]
fn a_run_is_its_calls() {
    let (mut one, mut other) = (moment(), moment());
    let single: Vec<_> = evening().iter().map(|call| one.call(call)).collect();
    assert_eq!(other.run(&evening()), single);
    assert_eq!(one, other);
    assert_eq!(single.iter().filter(|answer| answer.is_err()).count(), 2);
    assert_eq!(other.run(&[]), []);
    assert_eq!(one, other);
}

/// The plain engine makes operations alone.
#[test]
fn the_plain_engine_is_the_other_one() {
    let (mut one, mut other) = (moment(), moment());
    for call in evening() {
        match call.words() {
            Words::Operation { .. } => assert_eq!(other.plain_call(&call), one.call(&call)),
            _ => assert_eq!(other.plain_call(&call), Err(Refusal::Unknown)),
        }
        assert_eq!(one, other);
    }
}
