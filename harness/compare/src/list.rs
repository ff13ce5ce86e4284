//! The lists that the programs of `crates/replay` read and print, answered by the table
//! and the kernel. A case is a line: operation, CPU, time, context, the image's length,
//! how many of its words are not 0, and these as pairs of place and value. The answer is a line:
//! refusal, result, interrupt mark, rule, how many words the call changed, and these as pairs of
//! place and new value. A line that begins with # is copied. Other calls begin with a letter; their
//! answers are such lines where nothing else is said:
//!
//! - g wakes a group: CPU, time, mask, then the image as before;
//! - w adds up the weight of a CPU: CPU, then the image;
//! - a asks: CPU, time, then the image; the answer is five numbers;
//! - c commits: CPU, time, the five numbers, then the image;
//! - d calls in a window: operation, CPU, time, context, the window's length and words as an
//!   image's, then the image; at the end of the answer are the changed words of the window;
//! - h looks for the humblest priority: CPU, time, context, then the image; the answer is three
//!   numbers;
//! - o says whether two CPUs are apart, whose switches may come in either order: one CPU, the other,
//!   then the image;
//! - p is a call by the plain engine: operation, CPU, time, context, then the image;
//! - r plays a writer against a rival: CPU, time, writer, rival, rounds, then the image; the answer
//!   is three numbers;
//! - s adds up the share of a context: how many contexts there are, which one, then the window;
//! - t adds up the share of all: how many contexts there are, then the window.

mod read;

use read::{read_call, read_group, read_image};
pub use read::{read_case, read_pairs};

use crate::{
    ask::Ask,
    asks,
    expected::{Expected, expected},
    humblest, rival, windows,
};
use image::{
    Answer, Call, Group, TotalWeight, apart, asked::Asked, humblest::Tried, rival::Play, window,
};
use std::io::{Read, stdin};

/// The numbers of a case.
pub fn case(call: &Call, image: &[u64]) -> Vec<u64> {
    let mut numbers = vec![call.operation, call.cpu, call.time, call.context];
    put_image(&mut numbers, image);
    numbers
}

pub fn group_case(group: &Group, image: &[u64]) -> Vec<u64> {
    let mut numbers = vec![group.cpu, group.time, group.mask];
    put_image(&mut numbers, image);
    numbers
}

pub fn total_case(call: &TotalWeight, image: &[u64]) -> Vec<u64> {
    let mut numbers = vec![call.cpu];
    put_image(&mut numbers, image);
    numbers
}

fn put_image(numbers: &mut Vec<u64>, image: &[u64]) {
    numbers.push(image.len() as u64);
    put_pairs(numbers, &nonzero(image));
}

/// The numbers of an answer.
pub fn answer(answer: &Answer, before: &[u64], after: &[u64]) -> Vec<u64> {
    let mut numbers = vec![answer.refusal, answer.result, answer.interrupt, answer.rule];
    put_pairs(&mut numbers, &changes(before, after));
    numbers
}

fn put_pairs(numbers: &mut Vec<u64>, pairs: &[(usize, u64)]) {
    numbers.push(pairs.len() as u64);
    numbers.extend(pairs.iter().flat_map(|(i, v)| [*i as u64, *v]));
}

/// The words that the call changes, with their new values.
pub fn changes(before: &[u64], after: &[u64]) -> Vec<(usize, u64)> {
    let pairs = before.iter().zip(after).enumerate();
    pairs
        .filter(|(_, (before, after))| before != after)
        .map(|(index, (_, after))| (index, *after))
        .collect()
}

pub fn nonzero(image: &[u64]) -> Vec<(usize, u64)> {
    let words = image.iter().copied().enumerate();
    words.filter(|(_, word)| *word != 0).collect()
}

pub fn line(numbers: Vec<u64>) -> String {
    let words: Vec<String> = numbers.iter().map(u64::to_string).collect();
    words.join(" ")
}

/// Answers the list on standard input.
pub fn answers() -> bool {
    let mut text = String::new();
    stdin().read_to_string(&mut text).unwrap();
    for line in text.lines() {
        match line.starts_with('#') {
            true => println!("{line}"),
            false => println!("{}", answered(line)),
        }
    }
    true
}

fn answered(text: &str) -> String {
    let letter = text.chars().next().filter(char::is_ascii_lowercase);
    let mut numbers = text
        .split_whitespace()
        .skip(letter.is_some().into())
        .map(|word| word.parse::<u64>().expect("a number"));
    let mut next = || numbers.next().expect("the line is cut off");
    match letter {
        Some('g') => {
            let (group, image) = read_group(&mut next);
            answer_line(&group, &image)
        }
        Some('w') => {
            let call = TotalWeight { cpu: next() };
            answer_line(&call, &read_image(&mut next))
        }
        Some('a') => {
            let (cpu, time) = (next(), next());
            line(
                asks::asked(&read_image(&mut next), cpu, time)
                    .words()
                    .to_vec(),
            )
        }
        Some('c') => {
            let (cpu, time) = (next(), next());
            let reply = Asked::from_words(std::array::from_fn(|_| next()));
            let image = read_image(&mut next);
            let (got, after) = asks::committed(&image, cpu, time, reply);
            line(answer(&got, &image, &after))
        }
        Some('d') => {
            let call = read_call(&mut next);
            let words = read_image(&mut next);
            let image = read_image(&mut next);
            let (got, after, left) = windows::answered(&image, &words, &call);
            let mut numbers = answer(&got, &image, &after);
            put_pairs(&mut numbers, &changes(&words, &left));
            line(numbers)
        }
        Some('h') => {
            let (cpu, time, context) = (next(), next(), next());
            let tried = Tried { cpu, time, context };
            let trials = humblest::trials(&read_image(&mut next), &tried);
            line(trials.expect("no difference").answer.words().to_vec())
        }
        Some('o') => {
            let (one, other) = (next(), next());
            let image = read_image(&mut next);
            line(answer(&apart::apart(&image, one, other), &image, &image))
        }
        Some('r') => {
            let play = Play {
                cpu: next(),
                time: next(),
                writer: next(),
                rival: next(),
                rounds: next(),
            };
            let game = rival::game(&read_image(&mut next), &play);
            line(game.expect("no difference").words().to_vec())
        }
        Some('s') => {
            let (contexts, context) = (next(), next());
            let words = read_image(&mut next);
            let got = window::share(&words, contexts, context);
            line(answer(&got, &words, &words))
        }
        Some('t') => {
            let contexts = next();
            let words = read_image(&mut next);
            let got = window::share_of_all(&words, contexts);
            line(answer(&got, &words, &words))
        }
        _ => {
            let (call, image) = read_case(&mut next);
            answer_line(&call, &image)
        }
    }
}

fn answer_line(call: &impl Ask, image: &[u64]) -> String {
    match expected(image, call) {
        Ok(Expected::Known(got, after)) => line(answer(&got, image, &after)),
        Ok(Expected::Passes) => "passes".into(),
        Err(contradiction) => panic!("{}: {}", contradiction.0, call.text()),
    }
}
