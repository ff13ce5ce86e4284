//! The commands behind the scripts `run`, `lists`, `branches`, `power`, `power-table`,
//! `bench/switch` and `bench/cue_board`.

mod ask;
mod asks;
mod boards;
#[cfg(feature = "branches")]
mod branches;
mod calls;
#[cfg(feature = "branches")]
mod choose;
mod corners;
mod due;
#[path = "../../kernel/build/edits.rs"]
mod edits;
mod either;
mod expected;
mod explained;
mod generate;
mod humblest;
mod list;
mod locks;
mod met;
mod plain;
mod port;
#[cfg(feature = "oracle")]
mod power;
#[cfg(feature = "branches")]
mod record;
mod recorded;
mod replay;
mod report;
mod rival;
mod rules;
mod run;
mod runs;
mod sums;
mod tally;
#[cfg(feature = "oracle")]
mod times;
#[cfg(feature = "oracle")]
mod weighing;
mod weights;
mod windows;

use std::process::ExitCode;

fn main() -> ExitCode {
    let args: Vec<String> = std::env::args().skip(1).collect();
    let words: Vec<&str> = args.iter().map(String::as_str).collect();
    #[cfg(feature = "oracle")]
    {
        kernel::oracle::quiet();
        changed::oracle::quiet();
    }
    let number = |text: &str| text.parse::<u64>().expect("a number");
    let good = match words[..] {
        ["run", seed, count] => run::run(number(seed), number(count)),
        ["chain", seed, calls] => run::chain(number(seed), number(calls)),
        ["timers", seed, count] => run::timers(number(seed), number(count)),
        ["rules", seed, count] => run::rules(number(seed), number(count)),
        ["remainders", seed, count] => run::remainders(number(seed), number(count)),
        ["carried", seed, calls] => run::carried(number(seed), number(calls)),
        ["groups", seed, count] => run::groups(number(seed), number(count)),
        ["asks", seed, count] => asks::asks(number(seed), number(count)),
        ["windows", seed, count] => windows::windows(number(seed), number(count)),
        ["humblest", seed, count] => humblest::humblest(number(seed), number(count)),
        ["rival", seed, count] => rival::rival(number(seed), number(count)),
        ["either", seed, count] => either::either(number(seed), number(count)),
        ["plain", seed, count] => plain::plain(number(seed), number(count)),
        ["runs", seed, calls] => runs::runs(number(seed), number(calls)),
        ["locks", seed, count] => locks::locks(number(seed), number(count)),
        ["corners", seed, count] => corners::corners(number(seed), number(count)),
        ["totals", seed, count] => weights::totals(number(seed), number(count)),
        #[cfg(feature = "oracle")]
        ["weighed", seed, count] => weights::weighed(number(seed), number(count)),
        ["explained", seed, count] => explained::explained(number(seed), number(count)),
        ["texts", seed, count] => explained::texts(number(seed), number(count)),
        ["boards", seed, runs] => boards::boards(number(seed), number(runs)),
        ["replay", list] => replay::replay(list),
        ["calls", recorded, seed, each] => calls::calls(recorded, number(seed), number(each)),
        ["answers"] => list::answers(),
        ["renew", list] => replay::renew(list),
        ["edit", list, root] => edit(list, root),
        #[cfg(feature = "oracle")]
        ["times"] => times::times(),
        #[cfg(feature = "oracle")]
        ["times", "boards"] => times::boards::times(),
        #[cfg(feature = "oracle")]
        ["times", "chains"] => times::chains::table(),
        #[cfg(feature = "oracle")]
        ["answers", seed, count, to] => power::answers(number(seed), number(count), to),
        #[cfg(feature = "oracle")]
        ["against", seed, count, from] => power::against(number(seed), number(count), from),
        #[cfg(feature = "branches")]
        ["branches", seed, count] => branches::print(number(seed), number(count)),
        #[cfg(feature = "branches")]
        ["small", seed, count] => record::small(number(seed), number(count) as usize),
        #[cfg(feature = "branches")]
        ["record", seed, count, to] => record::words(number(seed), number(count) as usize, to),
        _ => {
            eprintln!("compare run SEED COUNT");
            false
        }
    };
    if good {
        ExitCode::SUCCESS
    } else {
        ExitCode::FAILURE
    }
}

/// Applies the edit that RONTHUYAL_EDIT numbers to its file below `root`.
fn edit(list: &str, root: &str) -> bool {
    let edit = edits::chosen(list.as_ref()).expect("RONTHUYAL_EDIT");
    let path = std::path::Path::new(root).join(&edit.file);
    let text = std::fs::read_to_string(&path).unwrap();
    print!("{} ", edit.whereabouts(&text));
    std::fs::write(path, edit.applied(&text)).is_ok()
}
