//! The recorded lists, in their two forms (harness/recorded/README.md).

use crate::list::{self, changes, nonzero, read_case, read_pairs};
use image::{Answer, Call, length};

pub struct Recorded {
    pub call: Call,
    pub image: Vec<u64>,
    pub answer: Answer,
    pub after: Vec<u64>,
}

/// A list, of text or of words.
pub fn read(path: &str) -> Vec<Recorded> {
    match path.ends_with(".txt") {
        true => text(path),
        false => words(path),
    }
}

pub fn write(path: &str, cases: &[Recorded]) -> bool {
    let bytes = match path.ends_with(".txt") {
        true => as_text(cases).into_bytes(),
        false => as_words(cases),
    };
    std::fs::write(path, bytes).is_ok()
}

/// The list of words.
pub fn words(path: &str) -> Vec<Recorded> {
    let bytes = std::fs::read(path).unwrap();
    let mut words = bytes
        .chunks_exact(8)
        .map(|word| u64::from_le_bytes(word.try_into().unwrap()));
    let mut next = || words.next().expect("the list is cut off");
    let cases = (0..next())
        .map(|_| {
            let (call, image) = read_case(&mut next);
            let answer = Answer {
                refusal: next(),
                result: next(),
                interrupt: next(),
                rule: next(),
            };
            let mut after = image.clone();
            read_pairs(&mut next, &mut after);
            Recorded {
                call,
                image,
                answer,
                after,
            }
        })
        .collect();
    assert_eq!(words.next(), None, "the list is too long");
    cases
}

/// The list of text.
fn text(path: &str) -> Vec<Recorded> {
    let text = std::fs::read_to_string(path).unwrap();
    let number = |text: &str| text.parse::<u64>().expect("a number");
    let fill = |image: &mut [u64], pairs: &str| {
        for pair in pairs.split_whitespace() {
            let (index, value) = pair.split_once(':').expect("a pair");
            image[number(index) as usize] = number(value);
        }
    };
    let case = |line: &str| {
        let part: Vec<&str> = line.split('|').collect();
        let call: Vec<u64> = part[0].split_whitespace().map(number).collect();
        let answer: Vec<u64> = part[2].split_whitespace().map(number).collect();
        let mut sizes = [0; 2];
        let first: Vec<&str> = part[1].split_whitespace().take(2).collect();
        fill(&mut sizes, &first.join(" "));
        let mut image = vec![0; length(sizes[0] as usize, sizes[1] as usize)];
        fill(&mut image, part[1]);
        let mut after = image.clone();
        fill(&mut after, part[3]);
        Recorded {
            call: Call {
                operation: call[0],
                cpu: call[1],
                time: call[2],
                context: call[3],
            },
            image,
            answer: Answer {
                refusal: answer[0],
                result: answer[1],
                interrupt: answer[2],
                rule: answer[3],
            },
            after,
        }
    };
    text.lines().map(case).collect()
}

pub fn as_text(cases: &[Recorded]) -> String {
    let pairs = |words: Vec<(usize, u64)>| {
        let text: Vec<String> = words.iter().map(|(i, v)| format!("{i}:{v}")).collect();
        text.join(" ")
    };
    let line = |case: &Recorded| {
        let (call, answer) = (&case.call, &case.answer);
        format!(
            "{} {} {} {} | {} | {} {} {} {} | {}\n",
            call.operation,
            call.cpu,
            call.time,
            call.context,
            pairs(nonzero(&case.image)),
            answer.refusal,
            answer.result,
            answer.interrupt,
            answer.rule,
            pairs(changes(&case.image, &case.after)),
        )
    };
    cases.iter().map(line).collect()
}

pub fn as_words(cases: &[Recorded]) -> Vec<u8> {
    let mut words = vec![cases.len() as u64];
    for case in cases {
        words.extend(list::case(&case.call, &case.image));
        words.extend(list::answer(&case.answer, &case.image, &case.after));
    }
    words.iter().flat_map(|word| word.to_le_bytes()).collect()
}
