//! How often each rule decided, by kind of case.

use crate::generate::{Case, KINDS};
use image::{Answer, RULES, View, decision, rule};

/// A rule that decides in fewer cases than one in so many of every kind is rare.
pub const RARE: u64 = 200;

#[derive(Default)]
pub struct Rules {
    cases: [u64; KINDS.len()],
    /// By number; 0 is of refused calls too.
    rules: [[u64; KINDS.len()]; RULES.len()],
    /// Decisions on tidy machines, whose rule is held to the own reading.
    judged: u64,
}

impl Rules {
    pub fn add(&mut self, case: &Case, answer: &Answer) {
        let kind = KINDS.iter().position(|(kind, _)| *kind == case.kind);
        if let (Some(kind), Some(row)) = (kind, self.rules.get_mut(answer.rule as usize)) {
            self.cases[kind] += 1;
            row[kind] += 1;
        }
        let (image, call) = (View(&case.image), &case.call);
        let judged =
            answer.refusal == 0 && decision::is_made(image, call) && rule::judges(image, call);
        self.judged += u64::from(judged);
    }
    pub fn is_rare(&self, rule: usize) -> bool {
        (0..KINDS.len()).all(|kind| self.rules[rule][kind] * RARE < self.cases[kind].max(1))
    }
    pub fn print(&self) {
        let row = |counts: &[u64; KINDS.len()]| {
            let cells = counts.iter().map(|count| format!("{count:9}"));
            cells.collect::<String>()
        };
        println!(
            "{:46}{}",
            format!("rule (< marks less than 1 in {RARE} of every kind)"),
            KINDS.map(|(_, name)| format!("{name:>9}")).concat()
        );
        println!("{:46}{}", "  cases", row(&self.cases));
        for (number, name) in RULES.iter().enumerate() {
            let rare = if self.is_rare(number) { "<" } else { "" };
            let counts = row(&self.rules[number]);
            println!("{:46}{counts} {rare}", format!("{number} {name}"));
        }
        let name = match cfg!(feature = "oracle") {
            true => "decisions on tidy machines, held to the table",
            false => "decisions on tidy machines",
        };
        println!("{name:46}{:9}", self.judged);
    }
}

#[cfg(all(test, feature = "oracle"))]
mod tests {
    use super::{RULES, Rules};
    use crate::{
        expected::{Contradiction, Expected, KERNEL, expected},
        generate::Stream,
    };
    use image::{View, block as b};

    /// Every rule decides in one case of 200 at least, of some kind; and the own idle context,
    /// queued elsewhere, is stolen now and then.
    #[test]
    fn none_is_rare() {
        let _alone = KERNEL.lock();
        let (mut stream, mut rules) = (Stream::rules(1), Rules::default());
        let mut idle_stolen = 0;
        for _ in 0..20_000 {
            let case = stream.next();
            match expected(&case.image, &case.call) {
                Ok(Expected::Known(answer, after)) => {
                    rules.add(&case, &answer);
                    let at = |word| View(&after).block(case.call.cpu as usize, word);
                    let idle = || at(b::SCHED_CTXT) == at(b::IDLE_CTXT);
                    idle_stolen += u64::from(answer.rule == 8 && idle());
                    stream.answered(&after);
                }
                Ok(Expected::Passes) => panic!("the kernel is not there"),
                Err(Contradiction(text)) => panic!("{text}"),
            }
        }
        let rare: Vec<usize> = (0..RULES.len()).filter(|n| rules.is_rare(*n)).collect();
        assert_eq!(rare, [0; 0]);
        assert!(idle_stolen > 40, "{idle_stolen}");
    }
}
