//! The text form: what is derived, what can be overridden, and that every image comes back.

use ronthuyal_image::tables::{ARRAYS, LAST, RECORD, SINGLE, SLICE_MAX};
use ronthuyal_image::text::{describe, pack, show};
use ronthuyal_image::{Labels, Names, Place, Unit, View, block, context, explain, length, tidy};

const QUEUED: &str = "
    context idle
    context rival
    context writer prio=10 vtime=100
    cpu 0 idle_ctxt=idle sched_ctxt=rival
    queue 0 writer
    timer 0 rival wake=5ms
    local 0 writer rival
    ipi 0 idle";

/// Of a queued context and of one in charge: worked out by hand, with the weights 9548 and 1024 of priorities 10 and 20.
#[test]
fn what_is_not_told_follows() {
    let packed = pack(QUEUED).unwrap();
    let view = View::new(&packed.words).unwrap();
    let record = |number, word| view.record(number, word);
    assert_eq!((view.cpus(), view.contexts()), (1, 3));
    assert_eq!([0, 1, 2].map(|number| record(number, context::DEBUG_ID)), [0, 1, 2]);
    assert_eq!([0, 1, 2].map(|number| record(number, context::USERSPACE)), [0, 1, 1]);
    assert_eq!([0, 1, 2].map(|number| record(number, context::RUNNING)), [0, 1, 0]);
    assert_eq!(
        [0, 1, 2].map(|number| record(number, context::CURRENTLY_SCHEDULED)),
        [0, 1, 0]
    );
    assert_eq!([0, 1, 2].map(|number| record(number, context::CPU_ID)), [0, 1, 0]);
    assert_eq!([0, 1, 2].map(|number| record(number, context::IS_ACTIVE)), [0, 1, 1]);
    assert_eq!(
        [0, 1, 2].map(|number| record(number, context::HAS_QUEUE_KEY)),
        [0, 0, 1]
    );
    assert_eq!(
        [0, 1, 2].map(|number| record(number, context::SCHED_AFFINITY)),
        [u64::MAX; 3]
    );
    let deadline = 100 + (9 << 30) / 9548;
    assert_eq!(record(2, context::VD), deadline);
    assert_eq!(record(2, context::REM_SLICE), SLICE_MAX);
    assert_eq!(record(2, context::QUEUE_KEY_VD), deadline);
    assert_eq!(record(1, context::VD), (9 << 30) / 1024);
    let word = |word| view.block(0, word);
    assert_eq!((word(block::PRESENT), word(block::STATE)), (1, 2));
    assert_eq!(
        (word(block::QUEUE_COUNT), word(block::STEALABLE), word(block::QUEUE_LEN)),
        (1, 1, 1)
    );
    assert_eq!(
        (word(block::TOTAL_WEIGHT), word(block::PUBLISHED_WEIGHT)),
        (9548 + 1024, 9548 + 1024)
    );
    assert_eq!(
        (word(block::KEY_VD), word(block::ENTRY_WEIGHT), word(block::KEY_CTXT_ID)),
        (deadline, 9548, 2)
    );
    assert_eq!(
        (word(block::TIMER_WAKE), word(block::TIMER_CONTEXT_REF)),
        (5_000_000, 1)
    );
    assert_eq!((word(block::LOCAL_COUNT), word(block::LOCAL_WAKEUP_LIST + 1)), (2, 1));
    assert_eq!((word(block::IPI_COUNT), word(block::IPI_CONTEXT_WAKEUP_LIST)), (1, 0));
}

/// Entries and timers may be written in any order.
#[test]
fn lists_are_put_in_order() {
    let text = "context idle\ncontext a vtime=9\ncontext b\ncpu 0 idle_ctxt=idle\nqueue 0 a\nqueue 0 b\n\
                timer 0 b wake=2ms\ntimer 0 a wake=1ms";
    let packed = pack(text).unwrap();
    let view = View::new(&packed.words).unwrap();
    assert_eq!(view.queue(0).collect::<Vec<_>>(), [2, 1]);
    assert_eq!(view.timers(0).collect::<Vec<_>>(), [(1_000_000, 1), (2_000_000, 2)]);
}

/// Each word of an image can be set by its name, and is then shown so that it comes back.
#[test]
fn every_word_can_be_overridden() {
    let packed = pack(QUEUED).unwrap();
    for index in 0..packed.words.len() {
        let place = Place::of(1, 3, index);
        let name = place.name(&packed.names);
        let mut changed = packed.clone();
        changed.set(99, &format!("set {name} = 3")).unwrap();
        assert_eq!((changed.words[index], changed.lines[index]), (3, 99), "{name}");
        let others = packed
            .words
            .iter()
            .zip(&changed.words)
            .filter(|(was, is)| was != is)
            .count();
        assert_eq!(others, usize::from(packed.words[index] != 3), "{name}");
        let shown = describe(&changed.words, &packed.names);
        assert_eq!(pack(&shown).unwrap().words, changed.words, "{name}\n{shown}");
    }
}

/// The words of a context and of a CPU can be told where it is named, too.
#[test]
fn every_word_can_be_told() {
    for (word, row) in RECORD.iter().enumerate() {
        let value = if row.unit == Unit::Context { "0" } else { "1" };
        let text = format!("context idle\ncontext a {}={value}\ncpu 0 idle_ctxt=idle", row.name);
        let packed = pack(&text).unwrap();
        assert_eq!(View::new(&packed.words).unwrap().record(1, word), 1, "{}", row.name);
    }
    let last = LAST.iter().enumerate().map(|(at, row)| (block::LAST + at, row));
    for (word, row) in SINGLE
        .iter()
        .enumerate()
        .chain(last)
        .filter(|(word, _)| *word != block::IDLE_CTXT)
    {
        let text = format!("context idle\ncpu 0 idle_ctxt=idle {}=1", row.name);
        let packed = pack(&text).unwrap();
        assert_eq!(View::new(&packed.words).unwrap().block(0, word), 1, "{}", row.name);
    }
}

#[test]
fn names_of_words_are_read_back() {
    let names = Names::new(vec!["idle".into(), "a-b_2".into()]);
    for index in 0..length(2, 2) {
        let place = Place::of(2, 2, index);
        let name = place.name(&names);
        assert_eq!(Place::parse(&name, 2, 2, &names), Ok(place), "{name}");
        assert_eq!(place.index(2), index);
    }
    assert_eq!(Place::of(2, 2, length(2, 2)), Place::Beyond(length(2, 2)));
    assert_eq!(ARRAYS.len(), block::COLUMN_NAMES.len());
}

/// Words of all sorts, whatever they say.
#[test]
fn any_words_come_back() {
    let mut state = 7_u64;
    let mut next = || {
        state = state
            .wrapping_mul(6_364_136_223_846_793_005)
            .wrapping_add(1_442_695_040_888_963_407);
        state >> 33
    };
    for round in 0..300 {
        let (cpus, contexts) = (next() % 4 + 1, next() % 8 + 1);
        let mut words = vec![0; length(cpus as usize, contexts as usize)];
        words[..2].copy_from_slice(&[cpus, contexts]);
        for _ in 0..next() % 400 {
            let at = 2 + next() as usize % (words.len() - 2);
            words[at] = [0, 1, 2, next() % 70, next(), u64::MAX][next() as usize % 6];
        }
        if round % 10 == 0 {
            words.truncate(next() as usize % words.len());
        }
        let shown = show(&words);
        let packed = pack(&shown).unwrap_or_else(|problems| panic!("{problems:?}\n{shown}"));
        assert_eq!(packed.words, words, "{shown}");
    }
}

/// A text with letters changed, left out or put in is read, or its line and what is allowed are told.
#[test]
fn wrong_texts_are_told() {
    let texts = [
        QUEUED,
        include_str!("../../../examples/moment.txt"),
        include_str!("../../../examples/evening.txt"),
    ];
    let mut state = 11_u64;
    let mut next = |bound: usize| {
        state = state
            .wrapping_mul(6_364_136_223_846_793_005)
            .wrapping_add(1_442_695_040_888_963_407);
        (state >> 33) as usize % bound
    };
    let letters: Vec<char> = " =.#[]0123456789abcdefghijklmnopqrstuvwxyz_-+\n^é".chars().collect();
    let (mut read, mut told) = (0, 0);
    for _ in 0..20_000 {
        let text = texts[next(texts.len())];
        let lines = text.lines().take_while(|line| !line.starts_with("call"));
        let mut text: Vec<char> = lines.collect::<Vec<_>>().join("\n").chars().collect();
        for _ in 0..1 + next(4) {
            let at = next(text.len());
            match next(4) {
                0 => drop(text.remove(at)),
                1 => text.insert(at, letters[next(letters.len())]),
                2 => text[at] = letters[next(letters.len())],
                // A line twice, or a piece of one.
                _ => {
                    let piece: Vec<char> = text[at..(at + 30).min(text.len())].to_vec();
                    text.splice(at..at, piece);
                }
            }
        }
        let text: String = text.into_iter().collect();
        match pack(&text) {
            Ok(packed) => {
                read += 1;
                let shown = describe(&packed.words, &packed.names);
                assert_eq!(pack(&shown).unwrap().words, packed.words, "{text}\n{shown}");
                let labels = Labels {
                    names: &packed.names,
                    lines: &packed.lines,
                };
                let _ = (
                    explain::image(&packed.words, &labels),
                    tidy::warnings(&packed.words, &labels),
                );
            }
            Err(problems) => {
                told += 1;
                let last = text.lines().count().max(1) as u32;
                for problem in problems {
                    assert!((1..=last).contains(&problem.line), "{problem:?} in\n{text}");
                    assert!(problem.says.contains("; "), "{problem:?}");
                }
            }
        }
    }
    assert!(read > 2_000 && told > 2_000, "{read} read, {told} told");
}
