//! The lists of the harness and of the programs `cases` and `recorded`, which are the kernel's own answers or worked out
//! by hand, through `replay`: each case an image of its own as text, the call, and expectations of the answer, of every
//! changed word, and of how many there are.

use ronthuyal::words::tables::OPERATIONS;
use ronthuyal::words::{Names, Place, length, text};
use std::fmt::Write;
use std::fs;
use std::path::{Path, PathBuf};
use std::process::Command;

struct Case {
    /// As a trace has it.
    call: String,
    image: Vec<u64>,
    /// Refusal, result, interrupt and rule; of asking the first two.
    answer: Vec<u64>,
    /// The words that it changes; of asking none.
    changes: Vec<(usize, u64)>,
}

fn root(name: &str) -> PathBuf {
    Path::new(env!("CARGO_MANIFEST_DIR")).join("../..").join(name)
}

fn operation([operation, cpu, time, context]: [u64; 4]) -> String {
    let row = OPERATIONS.get((operation as usize).wrapping_sub(1));
    let name = row.map_or(operation.to_string(), |row| row.name.to_string());
    match row.is_some_and(|row| row.takes_context) {
        true => format!("{name} {cpu} {time} {context}"),
        false => format!("{name} {cpu} {time}"),
    }
}

fn put(image: &mut [u64], words: &[(usize, u64)]) {
    words.iter().for_each(|(index, value)| image[*index] = *value);
}

/// harness/recorded/small.txt.
fn small() -> Vec<Case> {
    let pairs = |text: &str| -> Vec<(usize, u64)> {
        let pair = |pair: &str| {
            let (index, value) = pair.split_once(':').unwrap();
            (index.parse().unwrap(), value.parse().unwrap())
        };
        text.split_whitespace().map(pair).collect()
    };
    let numbers = |text: &str| -> Vec<u64> { text.split_whitespace().map(|word| word.parse().unwrap()).collect() };
    let text = fs::read_to_string(root("harness/recorded/small.txt")).unwrap();
    let case = |line: &str| {
        let parts: Vec<&str> = line.split('|').collect();
        let words = pairs(parts[1]);
        let mut image = vec![0; length(words[0].1 as usize, words[1].1 as usize)];
        put(&mut image, &words);
        Case {
            call: operation(numbers(parts[0]).try_into().unwrap()),
            image,
            answer: numbers(parts[2]),
            changes: pairs(parts[3]),
        }
    };
    text.lines().map(case).collect()
}

/// Numbers one after the other.
struct Numbers<I>(I);

impl<I: Iterator<Item = u64>> Numbers<I> {
    fn next(&mut self) -> u64 {
        self.0.next().expect("the list is cut off")
    }
    fn some<const N: usize>(&mut self) -> [u64; N] {
        std::array::from_fn(|_| self.next())
    }
    fn pairs(&mut self) -> Vec<(usize, u64)> {
        let count = self.next();
        (0..count).map(|_| (self.next() as usize, self.next())).collect()
    }
    fn image(&mut self) -> Vec<u64> {
        let mut image = vec![0; self.next() as usize];
        put(&mut image, &self.pairs());
        image
    }
}

/// harness/recorded/cases.bin.
fn large() -> Vec<Case> {
    let bytes = fs::read(root("harness/recorded/cases.bin")).unwrap();
    let words = bytes.chunks_exact(8).map(|b| u64::from_le_bytes(b.try_into().unwrap()));
    let mut list = Numbers(words);
    let count = list.next();
    let case = |_| Case {
        call: operation(list.some()),
        image: list.image(),
        answer: list.some::<4>().to_vec(),
        changes: list.pairs(),
    };
    (0..count).map(case).collect()
}

/// Calls that a trace has no line for: with windows, priorities, games and pairs of CPUs.
const NO_LINE: [char; 6] = ['d', 's', 't', 'h', 'r', 'o'];

/// The lists of crates/cases and crates/recorded: cases on one side, answers on the other.
fn programs(name: &str) -> Vec<Case> {
    let read = |file: &str| fs::read_to_string(root(&format!("crates/{name}/{file}"))).unwrap();
    let (asked, answered) = (read("stdin"), read("stdout"));
    let pairs = asked.lines().zip(answered.lines());
    pairs
        .filter(|(asked, _)| !asked.starts_with('#') && !asked.starts_with(NO_LINE))
        .map(|(asked, answered)| listed(asked, answered))
        .collect()
}

fn numbers(text: &str) -> Numbers<impl Iterator<Item = u64>> {
    Numbers(text.split_whitespace().map(|word| word.parse().expect("a number")))
}

fn listed(asked: &str, answered: &str) -> Case {
    let letter = asked.chars().next().filter(char::is_ascii_lowercase);
    let mut case = numbers(asked.trim_start_matches(|c: char| c.is_ascii_lowercase()));
    let call = match letter {
        Some('g') => {
            let [cpu, time, mask] = case.some();
            format!("unblock_group {cpu} {time} {mask}")
        }
        Some('w') => format!("total_weight {}", case.next()),
        Some('a') => {
            let [cpu, time] = case.some();
            format!("ask {cpu} {time}")
        }
        Some('c') => {
            let [cpu, time, refusal, result, in_charge, current, v] = case.some();
            format!("commit {cpu} {time} {refusal} {result} {in_charge} {current} {v}")
        }
        _ => operation(case.some()),
    };
    let image = case.image();
    let mut answer = numbers(answered);
    match letter {
        Some('a') => Case {
            call,
            image,
            answer: answer.some::<2>().to_vec(),
            changes: Vec::new(),
        },
        _ => Case {
            call,
            image,
            answer: answer.some::<4>().to_vec(),
            changes: answer.pairs(),
        },
    }
}

/// The case as lines of a trace; text and words are the same.
fn lines(case: &Case, out: &mut String) {
    let shown = text::show(&case.image);
    assert_eq!(text::pack(&shown).unwrap().words, case.image, "{shown}");
    let _ = writeln!(out, "image\n{shown}call {}", case.call);
    for (word, value) in ["refusal", "result", "interrupt", "rule"].iter().zip(&case.answer) {
        let _ = writeln!(out, "expect {word} = {value}");
    }
    let _ = writeln!(out, "expect changed = {}", case.changes.len());
    let size = |at: usize| case.image.get(at).copied().unwrap_or(0);
    let names = Names::invented(&case.image);
    for (index, value) in &case.changes {
        let place = Place::of(size(0), size(1), *index);
        let _ = writeln!(out, "expect {} = {value}", place.name(&names));
    }
}

fn replayed(name: &str, cases: &[Case], least: usize) {
    assert!(cases.len() >= least, "{} cases", cases.len());
    let mut trace = String::new();
    cases.iter().for_each(|case| lines(case, &mut trace));
    let path = Path::new(env!("CARGO_TARGET_TMPDIR")).join(format!("{name}.txt"));
    fs::write(&path, trace).unwrap();
    let done = Command::new(env!("CARGO_BIN_EXE_ronthuyal"))
        .args(["replay", "--quiet"])
        .arg(&path)
        .output()
        .unwrap();
    let (printed, said) = (
        String::from_utf8(done.stdout).unwrap(),
        String::from_utf8(done.stderr).unwrap(),
    );
    assert_eq!((done.status.code(), &said[..]), (Some(0), ""), "{printed}");
    let expected: usize = cases
        .iter()
        .map(|case| case.answer.len() + 1 + case.changes.len())
        .sum();
    let refused = cases.iter().filter(|case| case.answer[0] != 0).count();
    assert_eq!(
        printed,
        format!(
            "{} calls, {refused} refused; {expected} expectations met\n",
            cases.len()
        )
    );
}

#[test]
fn recorded_lists() {
    replayed("small", &small(), 100);
    replayed("large", &large(), 390);
}

#[test]
fn list_of_cases() {
    replayed("cases", &programs("cases"), 590);
}

#[test]
fn list_of_recorded() {
    replayed("recorded", &programs("recorded"), 2_880);
}
