//! The weight added up from the contexts (document 02, No. 7): the port's sum against an own one,
//! and stored totals along chains from machines that meet the conditions.

use crate::{
    expected::{Expected, expected},
    generate::{Case, Stream, rng::Rng},
    run::{one, unedited},
    tally::Tally,
};
use image::TotalWeight;
#[cfg(feature = "oracle")]
use {
    crate::{generate::mask, weighing},
    image::{Group, View, total_weight},
};

/// Sums on images of every kind, damaged ones too.
pub fn totals(seed: u64, count: u64) -> bool {
    unedited();
    let (mut stream, mut rng) = (Stream::new(seed), Rng::new(!seed));
    let mut tally = Tally::default();
    for number in 0..count {
        let Case {
            kind,
            image,
            call,
            chained,
        } = stream.next();
        let cpu = match rng.below(8) {
            0 => rng.below(5) as u64,
            1 => rng.pick(&[0, 4, 1 << 32, u64::MAX]),
            _ => call.cpu,
        };
        if let Ok(Expected::Known(_, after)) = expected(&image, &call) {
            stream.answered(&after);
        }
        let case = Case {
            kind,
            image,
            call: TotalWeight { cpu },
            chained,
        };
        let Some((answer, _)) = one(&case) else {
            println!("sum {number} of seed {seed}");
            return false;
        };
        tally.total(&case, &answer);
    }
    println!("{count} sums of seed {seed}, no difference");
    tally.print_totals();
    true
}

/// Single decisions and chains of all operations and groups, from machines whose stored totals
/// are those added up. After each call the port's sum of every present CPU is held to it as well.
#[cfg(feature = "oracle")]
pub fn weighed(seed: u64, count: u64) -> bool {
    unedited();
    let (mut stream, mut rng) = (Stream::weighed(seed), Rng::new(!seed));
    let mut tally = sorts::Weights::default();
    for number in 0..count {
        let mut case = stream.next();
        if !weighing::inside(&case.image, &case.call) {
            // Demand 3 says nothing of such a decision.
            case.call.operation = 5;
        }
        let mut after = step(&case, &mut tally);
        if let Some(image) = after.take_if(|_| rng.once_in(8)) {
            after = step(&group(&mut rng, image, &case), &mut tally);
        }
        let Some(after) = after else {
            println!("weighed case {number} of seed {seed}");
            return false;
        };
        stream.answered(&after);
    }
    println!("{count} weighed cases of seed {seed}, no difference");
    tally.print();
    true
}

/// A group to wake on the image that the call left.
#[cfg(feature = "oracle")]
fn group(rng: &mut Rng, image: Vec<u64>, case: &Case) -> Case<Group> {
    Case {
        kind: case.kind,
        call: Group {
            cpu: case.call.cpu,
            time: case.call.time,
            mask: mask(rng, View(&image)),
        },
        image,
        chained: true,
    }
}

/// The image after the call, or nothing if there was a difference.
#[cfg(feature = "oracle")]
fn step<A: sorts::Counted>(case: &Case<A>, tally: &mut sorts::Weights) -> Option<Vec<u64>> {
    let (answer, after) = one(case)?;
    let steady = weighing::steady(&case.image);
    tally.add(case, &answer, &after, steady);
    if steady && answer.refusal == 0 && !weighing::steady(&after) {
        crate::report::case(case);
        println!("an accepted call leaves a machine that does not meet the conditions");
        return None;
    }
    summed(case, &after)?;
    Some(after)
}

/// The port's sum of every present CPU.
#[cfg(feature = "oracle")]
fn summed<A>(case: &Case<A>, after: &[u64]) -> Option<()> {
    for cpu in total_weight::present(View(after)) {
        one(&Case {
            kind: case.kind,
            image: after.to_vec(),
            call: TotalWeight { cpu: cpu as u64 },
            chained: true,
        })?;
    }
    Some(())
}

#[cfg(feature = "oracle")]
#[path = "weights/sorts.rs"]
mod sorts;
