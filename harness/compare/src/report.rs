//! Prints a case with the names of its words.

use crate::{ask::Ask, generate::Case};
use image::{Answer, name};

pub fn case(case: &Case<impl Ask>) {
    println!(
        "{:?} case: {}, {} words",
        case.kind,
        case.call.text(),
        case.image.len()
    );
    println!("words of the image that are not 0:");
    for (index, value) in case.image.iter().enumerate() {
        if *value != 0 {
            println!("  {index:5} {} = {value}", word(&case.image, index));
        }
    }
}

pub fn word(image: &[u64], index: usize) -> String {
    match image {
        [cpus, contexts, ..] => name::of(*cpus, *contexts, index),
        _ => format!("word {index}"),
    }
}

/// Prints each difference; false if there is none.
pub fn differences(case: &Case<impl Ask>, want: (&Answer, &[u64]), got: (&Answer, &[u64])) -> bool {
    if want == got {
        return false;
    }
    self::case(case);
    println!("differences:");
    let row = |name: &str, want: u64, got: u64| {
        if want != got {
            println!("  {name}: expected {want}, got {got}");
        }
    };
    row("refusal", want.0.refusal, got.0.refusal);
    row("result", want.0.result, got.0.result);
    row("interrupt mark", want.0.interrupt, got.0.interrupt);
    row("rule", want.0.rule, got.0.rule);
    for (index, (want, got)) in want.1.iter().zip(got.1).enumerate() {
        if want != got {
            row(&word(&case.image, index), *want, *got);
        }
    }
    true
}
