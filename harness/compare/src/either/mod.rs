//! Two CPUs in either order (document 02, No. 14): switches of two CPUs both ways round, on kernel
//! and port, and the port's answer whether CPUs are apart, on images of every kind.

mod orders;
mod sorts;
#[cfg(all(test, feature = "oracle"))]
mod tests;

use crate::{
    generate::{Case, Stream, either as generate, rng::Rng},
    met::Met,
    port, report,
    run::unedited,
};
use image::{apart, check};
use orders::Both;

/// Of so many cases each sort must be met.
const ENOUGH: u64 = 6_000;

pub fn either(seed: u64, count: u64) -> bool {
    unedited();
    let mut met = Met::of(&sorts::names());
    let each = count / 3;
    let streams = [
        Stream::new(seed),
        Stream::timers(seed).carrying(),
        Stream::rules(seed).carrying(),
    ];
    let good = streams
        .into_iter()
        .all(|stream| all(stream, seed, each, &mut met));
    if good {
        println!("{} pairs of seed {seed}, no difference", each * 3);
    }
    // Without the kernel and without a port no call is made.
    let judged = port::THERE || cfg!(feature = "oracle");
    good && (!judged || met.hold(each * 3, ENOUGH))
}

fn all(mut stream: Stream, seed: u64, count: u64, met: &mut Met) -> bool {
    let mut rng = Rng::new(!seed);
    for number in 0..count {
        let mut case = stream.next();
        stream.answered(&case.image.clone());
        let mut calls = None;
        if check::image_refusal(&case.image, case.call.time) == 0 {
            let sort = rng.pick(&[0, 1, 1, 1, 1, 1, 2, 3, 4, 5, 5, 5]);
            calls = generate::calls(&mut rng, &mut case.image, sort, &case.call);
            met.note_if(calls.is_some(), generate::SORTS[sort]);
        }
        let cpus = match calls {
            Some([one, other]) => [one.cpu, other.cpu],
            None => [case.call.cpu, rng.below(4) as u64],
        };
        let good = answered(&mut rng, &case, cpus, met)
            && calls.is_none_or(|calls| {
                let both = Both::of(&case, calls);
                both.is_some_and(|both| both.holds(&case, met))
            });
        if !good {
            println!("pair {number} of seed {seed}{}: {calls:?}", stream.name());
            return false;
        }
    }
    true
}

/// The port says whether CPUs are apart, and leaves the image as it is.
fn answered(rng: &mut Rng, case: &Case, [one, other]: [u64; 2], met: &mut Met) -> bool {
    let odd = [0, 1, 2, 3, 4, 1 << 32, u64::MAX];
    let drawn = [(); 2].map(|()| rng.pick(&odd));
    let asked = [
        [one, other],
        [other, one],
        [one, one],
        [one, rng.pick(&odd)],
        [rng.pick(&odd), other],
        drawn,
    ];
    asked.into_iter().all(|[one, other]| {
        let want = apart::apart(&case.image, one, other);
        sorts::answered(met, &case.image, [one, other], &want);
        let mut image = case.image.clone();
        let got = port::apart(&mut image, one, other);
        let good = got.is_none_or(|got| got == want) && image == case.image;
        if !good {
            report::case(case);
            println!(
                "CPUs {one} and {other}: expected {want:?}, got {got:?}; image kept: {}",
                image == case.image
            );
        }
        good
    })
}
