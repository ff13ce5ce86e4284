//! What a call must answer: rows 1 to 8 by the own reading of the table, the rest by
//! the kernel's run: by the changed build where a due timer is unreadable, a timer put in removes
//! another or a remainder is carried here, else by the unchanged one and an own reading of the
//! remainder. Both are held to each other in every case. The rule of a decision is the one that
//! the marks in the changed build note.

use crate::ask::Ask;
use image::Answer;
#[cfg(feature = "oracle")]
use {
    crate::{generate::weight, weighing},
    image::{Call, Fault, View, block, decision, newest, remainder, rule, structure},
};

/// The kernel's CPUs are global: one test at a time.
#[cfg(all(test, feature = "oracle"))]
pub static KERNEL: std::sync::Mutex<()> = std::sync::Mutex::new(());

pub enum Expected {
    /// Answer and image after.
    Known(Answer, Vec<u64>),
    /// Without the kernel: accepted, or refused with 9.
    #[cfg_attr(feature = "oracle", allow(dead_code))]
    Passes,
}

/// A case in which the table, the kernel and its changed build cannot all be right.
pub struct Contradiction(pub String);

/// The kernel's CPUs are global: tests that run it take turns.
#[cfg(test)]
static ALONE: std::sync::Mutex<()> = std::sync::Mutex::new(());

pub fn expected(image: &[u64], call: &impl Ask) -> Result<Expected, Contradiction> {
    #[cfg(test)]
    let _alone = ALONE.lock();
    let refusal = call.refusal(image);
    if refusal == 7 {
        must_assert(image, call)?;
    }
    if refusal != 0 {
        return Ok(Expected::Known(Answer::refused(refusal), image.to_vec()));
    }
    run(image, call)
}

/// Both builds of the kernel are run on what may be a decision. The changed one must leave
/// what the unchanged one leaves, but for the unreadable and the superseded timers, and for what
/// the carried remainder adds.
#[cfg(feature = "oracle")]
fn run(image: &[u64], ask: &impl Ask) -> Result<Expected, Contradiction> {
    let mut after = image.to_vec();
    let answer = known(ask.kernel(&mut after))?;
    let Some(call) = ask.decision() else {
        whole(&answer, &after)?;
        return Ok(Expected::Known(answer, after));
    };
    let weighed = weighing::applies(image, call);
    weighing::kept(weighed, &answer, &after)?;
    counted(image, call, &answer, &after)?;
    doubled(image, call, &answer, &after)?;
    let mut after = image.to_vec();
    let answer = known(changed::oracle::call(&mut after, call))?;
    let want = by_the_source(image, call, answer.rule)?;
    // Only the changed text notes a rule.
    let unnamed = Answer { rule: 0, ..answer };
    if (unnamed, &after) != (want.0, &want.1) {
        return Err(Contradiction(
            "the changed build departs from the kernel in more than the unreadable and the superseded timers and the carried remainder".into(),
        ));
    }
    roomy()?;
    ruled(image, call, &answer, &after)?;
    weighing::kept(weighed, &answer, &after)?;
    whole(&answer, &after)?;
    Ok(Expected::Known(answer, after))
}

/// No timer finds its set full, which has one of each context at most.
#[cfg(feature = "oracle")]
fn roomy() -> Result<(), Contradiction> {
    let full = changed::branches::take_no_room().map(|which| changed::branches::FULL[which]);
    match full == Some("timers") {
        true => Err(Contradiction("there is no room for a timer".into())),
        false => Ok(()),
    }
}

/// No accepted call leaves a broken structure: no two timers of one context in a set.
#[cfg(feature = "oracle")]
fn whole(answer: &Answer, after: &[u64]) -> Result<(), Contradiction> {
    match answer.refusal == 0 && !structure::holds(View(after)) {
        true => Err(Contradiction(
            "an accepted call breaks the structure".into(),
        )),
        false => Ok(()),
    }
}

/// The changed build's answer, worked out from the source's own: the source finds the set
/// without the timer that is superseded, and the unreadable ones are put back after it; what the
/// carried remainder adds is an own reading.
#[cfg(feature = "oracle")]
fn by_the_source(
    image: &[u64],
    call: &Call,
    rule: u64,
) -> Result<(Answer, Vec<u64>), Contradiction> {
    let before = newest::without_superseded(View(image), call);
    let mut after = remainder::source_before(View(&before), call, weight);
    let answer = known(kernel::oracle::call(&mut after, call))?;
    match answer.refusal {
        0 => {
            let mut after = decision::with_unreadable(View(&before), call, &after);
            remainder::source_after(View(image), call, rule, &mut after);
            Ok((answer, after))
        }
        _ => Ok((answer, image.to_vec())),
    }
}

/// The source leaves two timers of one context exactly where one that is not due is superseded.
#[cfg(feature = "oracle")]
fn doubled(
    image: &[u64],
    call: &Call,
    answer: &Answer,
    after: &[u64],
) -> Result<(), Contradiction> {
    let superseded = newest::superseded(View(image), call);
    let read = superseded.is_some_and(|(wake, _)| wake > call.time + 1);
    let leaves = !structure::timers_differ(View(after), call.cpu as usize);
    if answer.refusal == 0 && leaves != read {
        return Err(Contradiction(format!(
            "the source leaves two timers of one context: {leaves}, and is read otherwise"
        )));
    }
    Ok(())
}

/// A rule is noted exactly where a decision is accepted; on a tidy machine it is that of the
/// own reading.
#[cfg(feature = "oracle")]
fn ruled(image: &[u64], call: &Call, answer: &Answer, after: &[u64]) -> Result<(), Contradiction> {
    let decided = answer.refusal == 0 && decision::is_made(View(image), call);
    let noted = answer.rule;
    if decided != (1..=9).contains(&noted) || !decided && noted != 0 {
        let text =
            format!("it is an accepted decision: {decided}, and its rule is noted as {noted}");
        return Err(Contradiction(text));
    }
    if !decided || !rule::judges(View(image), call) {
        return Ok(());
    }
    match rule::judged(View(image), call, View(after), weight) {
        read if read == noted => Ok(()),
        read => Err(Contradiction(format!(
            "the kernel's rule is {noted}, and is read as {read}"
        ))),
    }
}

#[cfg(feature = "oracle")]
fn known(answer: Result<Answer, Fault>) -> Result<Answer, Contradiction> {
    answer.map_err(|fault| {
        Contradiction(format!(
            "the table lets the call pass, the kernel has no answer: {fault:?}"
        ))
    })
}

/// Whether a call makes a decision is read from the image; an accepted one counts it.
#[cfg(feature = "oracle")]
fn counted(
    image: &[u64],
    call: &Call,
    answer: &Answer,
    after: &[u64],
) -> Result<(), Contradiction> {
    let decisions = |image| View(image).block(call.cpu as usize, block::CONTEXT_SWITCHES);
    let made = decisions(after) != decisions(image);
    if answer.refusal == 0 && made != decision::is_made(View(image), call) {
        return Err(Contradiction(format!(
            "it is a decision: {made}, and is read otherwise"
        )));
    }
    Ok(())
}

#[cfg(not(feature = "oracle"))]
fn run(_image: &[u64], _call: &impl Ask) -> Result<Expected, Contradiction> {
    Ok(Expected::Passes)
}

/// Row 7 is there because the source asserts: it must.
#[cfg(feature = "oracle")]
fn must_assert(image: &[u64], call: &impl Ask) -> Result<(), Contradiction> {
    match call.kernel(&mut image.to_vec()) {
        Err(Fault::Panics(_)) => Ok(()),
        other => Err(Contradiction(format!(
            "the table says 7, the kernel does not assert: {other:?}"
        ))),
    }
}

#[cfg(not(feature = "oracle"))]
fn must_assert(_image: &[u64], _call: &impl Ask) -> Result<(), Contradiction> {
    Ok(())
}
