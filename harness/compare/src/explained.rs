//! Images as text and refusals in words (rust/image), on generated cases: text gives the same words back, and the
//! number of the explanation is the port's.

use crate::{
    generate::{Groups, Stream},
    port,
};
use image::{Answer, Group, TotalWeight, View, block as b, check, context as c, decision, tidy};
use ronthuyal_image::{Call, Explanation, Labels, Names, explain, text};
use std::thread;

/// What a part of the calls came to.
#[derive(Default)]
struct Tally {
    calls: u64,
    refused: [u64; 10],
    named: u64,
    clashes: u64,
}

/// Calls and groups, on as many threads as there are cores; each refused call is explained by the same number, each
/// accepted one by none.
pub fn explained(seed: u64, count: u64) -> bool {
    if !port::THERE {
        println!("explanations: there is no port to hold them to");
        return true;
    }
    let parts = thread::available_parallelism().map_or(1, |cores| cores.get() as u64);
    let part =
        |part: u64| move || explained_part(seed.wrapping_mul(1000) + part, count.div_ceil(parts));
    let found: Vec<Result<Tally, String>> = thread::scope(|scope| {
        let running: Vec<_> = (0..parts).map(|n| scope.spawn(part(n))).collect();
        running
            .into_iter()
            .map(|part| part.join().unwrap())
            .collect()
    });
    let mut all = Tally::default();
    for tally in found {
        match tally {
            Ok(tally) => all.add(&tally),
            Err(difference) => {
                println!("{difference}");
                return false;
            }
        }
    }
    all.print();
    true
}

impl Tally {
    fn add(&mut self, other: &Self) {
        self.calls += other.calls;
        self.named += other.named;
        self.clashes += other.clashes;
        for (mine, theirs) in self.refused.iter_mut().zip(other.refused) {
            *mine += theirs;
        }
    }
    fn print(&self) {
        let numbers = self.refused[1..].iter().zip(1..);
        let met: Vec<String> = numbers
            .map(|(times, number)| format!("{number}: {times}"))
            .collect();
        println!(
            "explanations: {} calls, the port's number each time; refused {}; {} name a word, {} the other one too",
            self.calls,
            met.join(", "),
            self.named,
            self.clashes
        );
    }
}

fn explained_part(seed: u64, count: u64) -> Result<Tally, String> {
    let mut tally = Tally::default();
    let (mut calls, mut groups) = (Stream::new(seed), Groups::new(seed));
    for number in 0..count {
        if number % 8 == 7 {
            let mut case = groups.next();
            let Group { cpu, time, mask } = case.call;
            let call = Call::UnblockGroup { cpu, time, mask };
            let before = case.image.clone();
            let answer = port::unblock_group(&mut case.image, &Group { cpu, time, mask }).unwrap();
            groups.answered(&case.image);
            tally.take(&before, &call, &answer)?;
        } else {
            let mut case = calls.next();
            let image::Call {
                operation,
                cpu,
                time,
                context,
            } = case.call;
            let before = case.image.clone();
            tally.reading(&before, cpu, time)?;
            let call = Call::Operation {
                operation,
                cpu,
                time,
                context,
            };
            let answer = port::call(&mut case.image, &case.call).unwrap();
            calls.answered(&case.image);
            tally.take(&before, &call, &answer)?;
        }
    }
    Ok(tally)
}

impl Tally {
    /// Every eighth time the weight is asked for, every eighth time a switch.
    fn reading(&mut self, words: &[u64], cpu: u64, time: u64) -> Result<(), String> {
        match self.calls % 8 {
            1 => {
                let answer = port::total_weight(words, &TotalWeight { cpu }).unwrap();
                self.take(words, &Call::TotalWeight { cpu }, &answer)
            }
            3 => {
                let asked = port::ask(words, cpu, time).unwrap();
                self.take(
                    words,
                    &Call::Ask { cpu, time },
                    &Answer::refused(asked.refusal),
                )
            }
            _ => Ok(()),
        }
    }

    fn take(&mut self, words: &[u64], call: &Call, answer: &Answer) -> Result<(), String> {
        let names = Names::default();
        let labels = Labels {
            names: &names,
            lines: &[],
        };
        let made = |copy: &[u64]| match *call {
            Call::Operation {
                operation,
                cpu,
                time,
                context,
            } => {
                let call = image::Call {
                    operation,
                    cpu,
                    time,
                    context,
                };
                port::call(&mut copy.to_vec(), &call).unwrap().refusal
            }
            Call::Ask { cpu, time } => port::ask(copy, cpu, time).unwrap().refusal,
            _ => answer.refusal,
        };
        let mut why = explain::call(words, call, &labels);
        if why.is_none() && answer.refusal == 9 && call.decides() {
            why = explain::no_room(words, call, &labels, made).filter(|why| fits(words, call, why));
        }
        let number = why.as_ref().map_or(0, |why| why.refusal);
        if number != answer.refusal {
            let says = why.map_or("nothing".to_string(), |why| why.to_string());
            return Err(format!(
                "{call:?}: the port's refusal is {}, the explanation's {number}: {says}\n{}",
                answer.refusal,
                text::show(words)
            ));
        }
        self.calls += 1;
        self.refused[number as usize] += 1;
        if let Some(why) = why {
            self.named += u64::from(why.word.is_some());
            self.clashes += u64::from(why.other.is_some());
            let worded = !why.wrong.is_empty() && !why.allowed.is_empty();
            let placed = why.word.is_none_or(|word| word < words.len());
            if !worded || !placed || number == 4 && why.other.is_none() {
                return Err(format!(
                    "{call:?}: an explanation that names nothing: {why:?}"
                ));
            }
        }
        Ok(())
    }
}

/// Whether the list that is named can be the one: of a call that makes no decision the local list, and it is full; of
/// a decision the queue, which then gets its wake-ups, two stolen and the loser, or a local list of which all 64 names
/// are locked.
fn fits(words: &[u64], call: &Call, why: &Explanation) -> bool {
    let (view, cpu) = (View(words), call.cpu() as usize);
    let at = |word| view.block(cpu, word);
    let time = call.time().unwrap_or(0);
    let operation = call.operation().unwrap_or(0);
    let context = call.context().unwrap_or(0);
    let plain = image::Call {
        operation,
        cpu: call.cpu(),
        time,
        context,
    };
    let due = view
        .timers(cpu)
        .filter(|(wake, _)| *wake <= time + 1)
        .count() as u64;
    let names = at(b::LOCAL_COUNT);
    let room = at(b::QUEUE_COUNT) + due + names + 3 > 64;
    let locked =
        |slot: u64| view.context(at(b::LOCAL_WAKEUP_LIST + slot as usize) as usize, c::LOCK) != 0;
    let local = why.word == Some(view.block_at(cpu) + b::LOCAL_COUNT);
    match (local, decision::is_made(view, &plain)) {
        (true, false) => names == 64,
        (true, true) => names == 64 && (0..64).all(locked),
        (false, made) => made && room,
    }
}

/// Images as text and back, damaged ones too; and whether the two readings of tidy agree.
pub fn texts(seed: u64, count: u64) -> bool {
    let (mut stream, mut longest, mut tidied) = (Stream::new(seed), 0, 0);
    for _ in 0..count {
        let case = stream.next();
        let shown = text::show(&case.image);
        let back = match text::pack(&shown) {
            Ok(packed) => packed.words,
            Err(problems) => {
                println!("a text of ours is not read: {problems:?}\n{shown}");
                return false;
            }
        };
        if back != case.image {
            println!("a text gives other words:\n{shown}");
            return false;
        }
        longest = longest.max(shown.lines().count());
        let whole = check::image_refusal(&case.image, 0) == 0;
        if whole && tidy::holds(View(&case.image)) != ronthuyal_image::tidy::is_tidy(&case.image) {
            println!("tidy is read in two ways:\n{shown}");
            return false;
        }
        tidied += u64::from(whole && tidy::holds(View(&case.image)));
        stream.answered(&case.image);
    }
    println!(
        "texts: {count} images as text and back, the longest of {longest} lines; {tidied} of them tidy"
    );
    true
}
