//! Whether an edit of the kernel's text is seen: the unchanged kernel writes one
//! number for each case's answer and image, the edited one is held to them.

use crate::generate::{Case, Stream};
use image::{Answer, View, check, decision};
use std::{fs, hash::Hasher};

/// Answer and image after by one build, the rule by the changed one. They are not held to each
/// other: both may be edited.
fn answered(case: &Case) -> Option<(Answer, Vec<u64>)> {
    let mut after = case.image.clone();
    let refusal = check::refusal(&case.image, &case.call);
    if refusal != 0 {
        return Some((Answer::refused(refusal), after));
    }
    let answer = match decision::departs(View(&case.image), &case.call) {
        true => changed::oracle::call(&mut after, &case.call),
        false => kernel::oracle::call(&mut after, &case.call),
    };
    let rule = match check::decides(&case.call) {
        true => {
            changed::oracle::call(&mut case.image.clone(), &case.call)
                .ok()?
                .rule
        }
        false => 0,
    };
    let answer = Answer {
        rule,
        ..answer.ok()?
    };
    Some((answer, after))
}

/// A number for the answer and the image after; the image too, for the next case.
fn digest(case: &Case) -> (u64, Vec<u64>) {
    // A case without an answer is unlike every case with one.
    let Some((answer, after)) = answered(case) else {
        return (0, case.image.clone());
    };
    let mut hasher = std::hash::DefaultHasher::new();
    let Answer {
        refusal,
        result,
        interrupt,
        rule,
    } = answer;
    for word in [refusal, result, interrupt, rule] {
        hasher.write_u64(word);
    }
    for word in &after {
        hasher.write_u64(*word);
    }
    (hasher.finish() | 1, after)
}

/// The place of the edit. One of the kernel's text is in both builds.
fn edited() -> &'static str {
    match kernel::EDITED {
        "" => changed::EDITED,
        place => place,
    }
}

/// The cases of `harness/run`, then a third as many that carry remainders.
fn streams(seed: u64, count: u64) -> [(&'static str, Stream, u64); 2] {
    let carrying = Stream::new(seed).carrying();
    [
        ("", Stream::new(seed), count),
        ("carrying ", carrying, count / 3),
    ]
}

pub fn answers(seed: u64, count: u64, to: &str) -> bool {
    assert_eq!((kernel::EDITED, changed::EDITED), ("", ""));
    let mut bytes = Vec::new();
    for (_, mut stream, count) in streams(seed, count) {
        for _ in 0..count {
            let case = stream.next();
            let (digest, after) = digest(&case);
            bytes.extend(digest.to_le_bytes());
            stream.answered(&after);
        }
    }
    fs::write(to, bytes).unwrap();
    true
}

pub fn against(seed: u64, count: u64, from: &str) -> bool {
    let bytes = fs::read(from).unwrap();
    let mut wanted = bytes.chunks(8);
    for (name, mut stream, count) in streams(seed, count) {
        for number in 0..count {
            let case = stream.next();
            let (got, after) = digest(&case);
            let want = wanted.next().expect("as many answers as cases");
            if got.to_le_bytes() != want {
                let kind = format!("{:?}", case.kind).to_lowercase();
                println!("{} | {name}{number} ({kind})", edited());
                return true;
            }
            stream.answered(&after);
        }
    }
    println!("{} | not in {}", edited(), bytes.len() / 8);
    true
}
