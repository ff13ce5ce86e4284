//! The two switches in both orders, each held to the kernel's.

use super::sorts;
use crate::{generate::Case, met::Met, port, report, run::called};
use image::{Answer, Call, View, apart, name};

/// One switch: its answer, and the image that it leaves.
type Switched = (Answer, Vec<u64>);

pub struct Both {
    pub calls: [Call; 2],
    /// Of each switch on the first image.
    pub first: [Switched; 2],
    /// Of each switch on the image that the other one leaves.
    pub second: [Switched; 2],
}

/// The kernel's switch, to which the port's is held; nothing if they differ.
fn switched(case: &Case, image: &[u64], call: Call) -> Option<Switched> {
    let (answer, after) = called(image, &call)?;
    let mut got_image = image.to_vec();
    let Some(got) = port::switch(&mut got_image, call.cpu, call.time) else {
        return Some((answer, after));
    };
    let case = Case {
        kind: case.kind,
        image: image.to_vec(),
        call,
        chained: case.chained,
    };
    let differs = report::differences(&case, (&answer, &after), (&got, &got_image));
    (!differs).then_some((answer, after))
}

impl Both {
    pub fn of(case: &Case, calls: [Call; 2]) -> Option<Self> {
        let [one, other] = calls;
        let first = [
            switched(case, &case.image, one)?,
            switched(case, &case.image, other)?,
        ];
        let second = [
            switched(case, &first[1].1, one)?,
            switched(case, &first[0].1, other)?,
        ];
        Some(Self {
            calls,
            first,
            second,
        })
    }

    /// How many of the four calls are accepted.
    pub fn accepted(&self) -> usize {
        let made = self.first.iter().chain(&self.second);
        made.filter(|(answer, _)| answer.refusal == 0).count()
    }

    /// Whether an accepted switch of these falls on a stealing turn, judged on the first image.
    pub fn steals(&self, image: &[u64], which: usize) -> bool {
        let answer = &self.first[which].0;
        answer.refusal == 0
            && apart::falls_on_stealing_turn(View(image), &self.calls[which], answer.rule)
    }

    /// The same image, word for word, and the same two answers, rule included.
    pub fn same(&self) -> bool {
        let answers = |made: &[Switched; 2]| [made[0].0, made[1].0];
        self.second[0].1 == self.second[1].1 && answers(&self.first) == answers(&self.second)
    }

    pub fn holds(&self, case: &Case, met: &mut Met) -> bool {
        let image = &case.image;
        let [one, other] = self.calls.map(|call| call.cpu);
        let apart = apart::apart(image, one, other).result == 1;
        let steals = [0, 1].map(|which| self.steals(image, which));
        for which in [0, 1] {
            if !steals[which] && !self.local(case, which) {
                return false;
            }
        }
        let steals = steals.contains(&true);
        sorts::note(met, image, self, apart, steals);
        let good = self.same() || !apart || steals || self.accepted() < 4;
        if !good {
            report::case(case);
            println!("the two orders differ, though the CPUs are apart:");
            println!("  answers first {:?}", [self.first[0].0, self.first[1].0]);
            println!(
                "  answers second {:?}",
                [self.second[0].0, self.second[1].0]
            );
            let pairs = self.second[0].1.iter().zip(&self.second[1].1).enumerate();
            for (index, (last, first)) in pairs.filter(|(_, (a, b))| a != b) {
                let name = report::word(image, index);
                println!("  {name}: {first} if CPU {one} is first, else {last}");
            }
        }
        good
    }

    /// A switch that does not steal writes its own block, and the records that this names.
    fn local(&self, case: &Case, which: usize) -> bool {
        let (image, cpu) = (View(&case.image), self.calls[which].cpu as usize);
        let named = apart::named(image, cpu);
        let records = named
            .iter()
            .map(|context| image.context_at(*context as usize));
        let mut places: Vec<(usize, usize)> =
            records.map(|at| (at, at + image::context::WORDS)).collect();
        let block = image.block_at(cpu);
        places.push((block, block + image::block::WORDS));
        let after = &self.first[which].1;
        let strays = (0..after.len()).find(|index| {
            let own = places.iter().any(|(from, to)| (*from..*to).contains(index));
            !own && after[*index] != case.image[*index]
        });
        if let Some(index) = strays {
            report::case(case);
            let name = name::of(case.image[0], case.image[1], index);
            println!("the switch of CPU {cpu} steals nothing, and writes {name}");
        }
        strays.is_none()
    }
}
