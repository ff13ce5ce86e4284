//! Stands in for the port: the table, the kernel and, for the rule and where the port departs from
//! it, its changed build behind the port's interface. What a carried remainder adds is the own
//! reading. The comparison is tried on it, and edits of the table show whether it would see a port
//! that reads the table otherwise.

mod apart;
mod board;
mod group;
mod humblest;
mod operations;
mod plain;
mod rival;
mod run;
mod window;

use image::{
    Answer, Call, Group, TotalWeight, View,
    asked::{Asked, switch},
    check, decision, remainder, total_weight,
};

/// # Safety
/// `image` points to `len` words.
#[unsafe(no_mangle)]
pub unsafe extern "C" fn ronthuyal_call(
    image: *mut u64,
    len: usize,
    operation: u64,
    cpu: u64,
    time: u64,
    context: u64,
) -> Answer {
    let words = unsafe { std::slice::from_raw_parts_mut(image, len) };
    called(
        words,
        &Call {
            operation,
            cpu,
            time,
            context,
        },
    )
}

fn called(words: &mut [u64], call: &Call) -> Answer {
    let refusal = check::refusal(words, call);
    match refusal {
        0 => made(words, call),
        _ => Answer::refused(refusal),
    }
}

/// The kernel's CPUs are global: callers in several threads, as tests are, take turns.
static KERNEL: std::sync::Mutex<()> = std::sync::Mutex::new(());

/// A call that rows 1 to 8 let pass.
fn made(words: &mut [u64], call: &Call) -> Answer {
    let _alone = KERNEL.lock();
    let rule = rule(words, call);
    let before = words.to_vec();
    let mut after = remainder::source_before(View(&before), call, weight);
    let answer = match decision::departs(View(&after), call) {
        true => changed::oracle::call(&mut after, call),
        false => kernel::oracle::call(&mut after, call),
    };
    let Ok(answer) = answer else {
        // No row has this number: an edited table let a call pass that has no answer.
        return Answer::refused(u64::MAX);
    };
    if answer.refusal == 0 {
        remainder::source_after(View(&before), call, rule, &mut after);
        words.copy_from_slice(&after);
    }
    Answer { rule, ..answer }
}

/// That of a priority; an edited table may let one pass that has none.
fn weight(prio: u64) -> u64 {
    let weights = kernel::context::switch::SCHED_PRIO_TO_WEIGHT;
    weights
        .get(prio as usize)
        .map_or(1, |weight| *weight as u64)
}

/// The changed build notes the rule of a decision.
fn rule(words: &[u64], call: &Call) -> u64 {
    match check::decides(call) {
        true => changed::oracle::call(&mut words.to_vec(), call).map_or(0, |answer| answer.rule),
        false => 0,
    }
}

/// # Safety
/// `image` points to `len` words.
#[unsafe(no_mangle)]
pub unsafe extern "C" fn ronthuyal_unblock_group(
    image: *mut u64,
    len: usize,
    cpu: u64,
    time: u64,
    mask: u64,
) -> Answer {
    let words = unsafe { std::slice::from_raw_parts_mut(image, len) };
    group::unblock_group(words, &Group { cpu, time, mask })
}

/// # Safety
/// `image` points to `len` words.
#[unsafe(no_mangle)]
pub unsafe extern "C" fn ronthuyal_total_weight(image: *const u64, len: usize, cpu: u64) -> Answer {
    let words = unsafe { std::slice::from_raw_parts(image, len) };
    let refusal = total_weight::refusal(words, &TotalWeight { cpu });
    if refusal != 0 {
        return Answer::refused(refusal);
    }
    Answer {
        result: total_weight::total(View(words), cpu as usize, weight),
        ..Answer::default()
    }
}

/// # Safety
/// `image` points to `len` words.
#[unsafe(no_mangle)]
pub unsafe extern "C" fn ronthuyal_ask(
    image: *const u64,
    len: usize,
    cpu: u64,
    time: u64,
) -> Asked {
    let mut words = unsafe { std::slice::from_raw_parts(image, len) }.to_vec();
    let answer = called(&mut words, &switch(cpu, time));
    Asked::of(&answer, &words, cpu)
}

/// # Safety
/// `image` points to `len` words.
#[unsafe(no_mangle)]
#[allow(clippy::too_many_arguments)]
pub unsafe extern "C" fn ronthuyal_commit(
    image: *mut u64,
    len: usize,
    cpu: u64,
    time: u64,
    refusal: u64,
    result: u64,
    in_charge: u64,
    current: u64,
    v: u64,
) -> Answer {
    let words = unsafe { std::slice::from_raw_parts_mut(image, len) };
    let before = words.to_vec();
    let answer = called(words, &switch(cpu, time));
    let now = Asked::of(&answer, words, cpu);
    let reply = Asked::from_words([refusal, result, in_charge, current, v]);
    let (answer, after) = reply.commit(&before, now, &answer, words);
    words.copy_from_slice(&after);
    answer
}
