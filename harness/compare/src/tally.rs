//! How many cases of each sort were compared.

use crate::{due::Sorts, generate::Case, port, rules::Rules};
use image::{Answer, Group, OPERATIONS, TotalWeight, View};

/// Of some of the cases: all, refused ones, those compared with the port.
#[derive(Default)]
struct Counts {
    cases: u64,
    refused: u64,
    compared: u64,
}

impl Counts {
    fn add(&mut self, refused: bool) {
        self.cases += 1;
        self.refused += u64::from(refused);
        self.compared += u64::from(port::THERE);
    }
    fn print(&self, name: &str) {
        let Self {
            cases,
            refused,
            compared,
        } = self;
        println!("{name:29} {cases:8} {refused:8} {compared:14}");
    }
}

#[derive(Default)]
pub struct Tally {
    /// By operation, 0 for none such.
    operations: [Counts; 8],
    /// Groups, by how many contexts are named: none, one, up to a dozen, more.
    groups: [Counts; 4],
    /// Sums of a CPU's weights.
    totals: Counts,
    /// Calls on the image that the call before left.
    chained: Counts,
    refusals: [u64; 10],
    due: Sorts,
    rules: Rules,
}

impl Tally {
    pub fn call(&mut self, case: &Case, answer: &Answer) {
        let operation = match case.call.operation {
            1..=7 => case.call.operation as usize,
            _ => 0,
        };
        self.operations[operation].add(answer.refusal != 0);
        if matches!(answer.refusal, 0 | 9) {
            self.due.add(View(&case.image), &case.call);
        }
        self.rules.add(case, answer);
        self.any(case.chained, answer);
    }
    pub fn group(&mut self, case: &Case<Group>, answer: &Answer) {
        let names = match case.call.mask.count_ones() {
            0 => 0,
            1 => 1,
            2..=12 => 2,
            _ => 3,
        };
        self.groups[names].add(answer.refusal != 0);
        self.any(case.chained, answer);
    }
    pub fn total(&mut self, case: &Case<TotalWeight>, answer: &Answer) {
        self.totals.add(answer.refusal != 0);
        self.any(case.chained, answer);
    }
    fn any(&mut self, chained: bool, answer: &Answer) {
        if chained {
            self.chained.add(answer.refusal != 0);
        }
        self.refusals[answer.refusal as usize] += 1;
    }

    pub fn print_calls(&self) {
        println!("operation                        cases  refused  port compared");
        for (operation, counts) in self.operations.iter().enumerate() {
            let name = operation
                .checked_sub(1)
                .map_or("none such", |n| OPERATIONS[n]);
            counts.print(&format!("{operation} {name}"));
        }
        self.due.print();
        self.rules.print();
        self.print_rest();
    }
    pub fn print_groups(&self) {
        println!("unblock_group                    cases  refused  port compared");
        let names = ["nobody named", "one name", "2 to 12 names", "more names"];
        for (name, counts) in names.iter().zip(&self.groups) {
            counts.print(name);
        }
        self.print_rest();
    }
    pub fn print_totals(&self) {
        println!("total_weight                     cases  refused  port compared");
        self.totals.print("sums");
        self.print_rest();
    }
    fn print_rest(&self) {
        self.chained.print("of all, chained calls");
        for (refusal, cases) in self.refusals.iter().enumerate() {
            println!("refusal {refusal}: {cases} cases");
        }
        if !cfg!(feature = "oracle") {
            println!("NOT compared: the kernel's sources are not there. Answers and images of");
            println!("accepted calls were not looked at, and refusal 9 was not judged.");
        }
        if !port::THERE {
            println!("NOT compared: there is no archive of the port.");
        }
    }
}
