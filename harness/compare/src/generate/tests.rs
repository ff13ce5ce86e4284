use super::{Kind, Stream};
use image::{
    REMAINDER_MAX, ROOM, View, block as b, check, decision, newest, remainder, structure, tidy,
};

/// Cases of the kind tidy are tidy, those of the kind untidy mostly not, and both
/// have images that rows 1 to 4 let pass.
fn kinds(mut stream: Stream) {
    let mut untidy = 0;
    for _ in 0..20_000 {
        let case = stream.next();
        let is_tidy = |image| tidy::holds(View(image));
        match case.kind {
            Kind::Tidy => assert!(is_tidy(&case.image)),
            Kind::Untidy => untidy += u64::from(!is_tidy(&case.image)),
            _ => continue,
        }
        assert!(!(1..=4).contains(&check::refusal(&case.image, &case.call)));
    }
    assert!(untidy > 2000);
}

#[test]
fn kinds_of_all() {
    kinds(Stream::new(1));
}

#[test]
fn kinds_of_timers() {
    kinds(Stream::timers(1));
}

#[test]
fn kinds_of_rules() {
    kinds(Stream::rules(1));
}

/// Half of the calls that are made for it are decisions with an unreadable due timer.
#[test]
fn unreadable() {
    let mut stream = Stream::timers(1);
    let held = (0..10_000).filter(|_| {
        let case = stream.next();
        check::refusal(&case.image, &case.call) == 0
            && decision::unreadable_due(View(&case.image), &case.call)
    });
    assert!(held.count() > 4000);
}

/// Of a stream's cases that rows 1 to 8 let pass, how many are such.
fn count(mut stream: Stream, such: impl Fn(View, &image::Call) -> bool) -> usize {
    let cases = (0..20_000).map(|_| stream.next());
    let such = |case: &super::Case| {
        check::refusal(&case.image, &case.call) == 0 && such(View(&case.image), &case.call)
    };
    cases.filter(such).count()
}

/// A timer put in removes another, due or not, earlier or later, or finds itself in the set.
#[test]
fn superseded() {
    let removed = |which: fn(u64, u64, u64) -> bool| {
        count(Stream::new(1), |image, call| {
            let put = newest::put_in(image, call);
            let pair = put.zip(newest::superseded(image, call));
            pair.is_some_and(|(new, old)| which(new.0, old.0, call.time + 1))
        })
    };
    assert!(removed(|_, old, due| old <= due) > 40);
    assert!(removed(|new, old, due| old > due && old < new) > 10);
    assert!(removed(|new, old, _| old > new) > 40);
    let itself = count(Stream::new(1), |image, call| {
        let put = newest::put_in(image, call);
        image
            .timers(call.cpu as usize)
            .any(|timer| Some(timer) == put)
    });
    assert!(itself > 40);
}

/// 64 timers of 64 contexts and a holder that stops: of another wake, and of just this one.
#[test]
fn full_sets() {
    let full = |image: View, cpu| image.block(cpu, b::TIMERS_COUNT) as usize == ROOM;
    let of = |other: bool| {
        count(Stream::new(1), |image, call| {
            full(image, call.cpu as usize)
                && newest::put_in(image, call).is_some()
                && newest::superseded(image, call).is_some() == other
        })
    };
    assert!(of(true) > 4 && of(false) > 0, "{} {}", of(true), of(false));
}

/// Sets with two timers of one context, neighbours and not, are broken only by that; the same
/// context in the sets of two CPUs is good.
#[test]
fn two_of_one_context() {
    let mut stream = Stream::new(1);
    let (mut beside, mut apart, mut elsewhere) = (0, 0, 0);
    for _ in 0..20_000 {
        let case = stream.next();
        match check::refusal(&case.image, &case.call) {
            4 => {}
            1..=3 => continue,
            _ => {
                elsewhere += u64::from(on_two(View(&case.image)));
                continue;
            }
        }
        let image = View(&case.image);
        for cpu in (0..image.cpus()).filter(|cpu| image.present(*cpu)) {
            let timers: Vec<(u64, u64)> = image.timers(cpu).collect();
            if structure::timers_differ(image, cpu) || !timers.is_sorted() {
                continue;
            }
            let neighbours = timers.windows(2).any(|pair| pair[0].1 == pair[1].1);
            beside += u64::from(neighbours);
            apart += u64::from(!neighbours);
        }
    }
    assert!(
        beside > 20 && apart > 10 && elsewhere > 100,
        "{beside} {apart} {elsewhere}"
    );
}

fn on_two(image: View) -> bool {
    let timed = |cpu: usize| {
        image
            .timers(cpu)
            .fold(0_u64, |marks, timer| marks | 1 << timer.1)
    };
    let sets: Vec<u64> = (0..image.cpus()).map(timed).collect();
    let together = |at: usize| sets[..at].iter().any(|set| set & sets[at] != 0);
    (1..sets.len()).any(together)
}

/// Every sort of remainder is here, and each leads to a tick more and to none; over the range, and
/// of an absent CPU, it is what the call is refused for.
#[test]
fn remainders() {
    let decides = |image: View, call: &image::Call| decision::is_made(image, call);
    for wanted in [0, 1, 777, 1_234_567, REMAINDER_MAX] {
        let with = count(Stream::new(1).carrying(), |image, call| {
            decides(image, call) && remainder::carried(image, call) == wanted
        });
        assert!(with > 100, "{wanted}: {with}");
    }
    let left = |wanted: u64| {
        count(Stream::new(1).carrying(), |image, call| {
            decides(image, call) && remainder::left(image, call) == wanted
        })
    };
    assert!(left(0) > 100 && left(REMAINDER_MAX) > 100);
    let more = count(Stream::new(1).carrying(), |image, call| {
        remainder::one_more(image, call).is_some()
    });
    assert!(more > 1000, "{more}");
    let mut stream = Stream::new(1).carrying();
    let [mut over, mut absent] = [0, 0];
    for _ in 0..20_000 {
        let case = stream.next();
        if check::refusal(&case.image, &case.call) != 3 || case.kind == Kind::Damaged {
            continue;
        }
        let image = View(&case.image);
        for cpu in 0..image.cpus() {
            let remainder = image.block(cpu, b::REMAINDER);
            over += u64::from(image.present(cpu) && remainder > REMAINDER_MAX);
            absent += u64::from(!image.present(cpu) && remainder > 0);
        }
    }
    assert!(over > 100 && absent > 20, "{over} {absent}");
}

/// Other streams carry nothing on the CPU of the call, and something on others.
#[test]
fn nothing_carried_here() {
    for stream in [Stream::new(1), Stream::timers(1), Stream::rules(1)] {
        let (mut stream, mut elsewhere) = (stream, 0);
        for _ in 0..5000 {
            let case = stream.next();
            if check::refusal(&case.image, &case.call) != 0 {
                continue;
            }
            let image = View(&case.image);
            assert_eq!(remainder::carried(image, &case.call), 0);
            let mut all = (0..image.cpus()).map(|cpu| image.block(cpu, b::REMAINDER));
            elsewhere += u64::from(all.any(|remainder| remainder > 0));
        }
        assert!(elsewhere > 500, "{elsewhere}");
    }
}
