//! Lock states of moments: numbers that are worked out by hand, parts that are joined, and states that are replayed.

mod numbers;
mod pages;
mod parts;
mod random;

use serde_json::Value;
use std::collections::BTreeMap;
use std::fs;
use std::path::{Path, PathBuf};
use std::process::{Command, Output};

fn ronthuyal(arguments: &[&str]) -> Output {
    Command::new(env!("CARGO_BIN_EXE_ronthuyal"))
        .args(arguments)
        .output()
        .unwrap()
}

fn printed(arguments: &[&str]) -> String {
    let done = ronthuyal(arguments);
    assert_eq!(
        done.status.code(),
        Some(0),
        "{arguments:?}: {}",
        String::from_utf8_lossy(&done.stderr)
    );
    String::from_utf8(done.stdout).unwrap()
}

fn json(arguments: &[&str]) -> Value {
    serde_json::from_str(&printed(&[arguments, &["--json"]].concat())).unwrap()
}

fn moment() -> String {
    Path::new(env!("CARGO_MANIFEST_DIR"))
        .join("../../examples/moment.txt")
        .display()
        .to_string()
}

/// A file of a test's own.
fn kept(name: &str, text: &str) -> String {
    let folder = Path::new(env!("CARGO_TARGET_TMPDIR")).join("explore");
    fs::create_dir_all(&folder).unwrap();
    let path: PathBuf = folder.join(name);
    fs::write(&path, text).unwrap();
    path.display().to_string()
}

fn texts(value: &Value) -> Vec<&str> {
    value
        .as_array()
        .unwrap()
        .iter()
        .map(|one| one.as_str().unwrap())
        .collect()
}

/// For each state its outcome.
fn outcomes(all: &Value) -> Vec<&Value> {
    let runs = all["runs"].as_array().unwrap().iter();
    let each = runs.flat_map(|run| {
        let (outcome, length) = (run[0].as_u64().unwrap() as usize, run[1].as_u64().unwrap() as usize);
        std::iter::repeat_n(&all["outcomes"][outcome], length)
    });
    each.collect()
}

/// The values of the words in a state, the last word fastest.
fn values(all: &Value, mut state: u64) -> BTreeMap<&str, &str> {
    let mut values = BTreeMap::new();
    for dimension in all["dimensions"].as_array().unwrap().iter().rev() {
        let labels = texts(&dimension["labels"]);
        let count = labels.len() as u64;
        values.insert(dimension["name"].as_str().unwrap(), labels[(state % count) as usize]);
        state /= count;
    }
    values
}

/// How many states each group has, by what is said of it.
fn groups(all: &Value) -> BTreeMap<&str, u64> {
    let each = all["groups"].as_array().unwrap().iter();
    each.map(|group| {
        (
            group["says"].as_str().unwrap(),
            group["states"].as_str().unwrap().parse().unwrap(),
        )
    })
    .collect()
}

const STEAL: &str = "context idle0\ncontext idle1\ncontext rival\ncontext writer\ncontext logger\ncontext clock\n\
    cpu 0 idle_ctxt=idle0 sched_ctxt=rival\ncpu 1 idle_ctxt=idle1\nqueue 0 writer\nqueue 0 logger\nqueue 0 clock\n";

/// A number below a bound.
struct Random(u64);

impl Random {
    fn below(&mut self, bound: u64) -> u64 {
        self.0 = self
            .0
            .wrapping_mul(6_364_136_223_846_793_005)
            .wrapping_add(1_442_695_040_888_963_407);
        (self.0 >> 33) % bound
    }
}

/// A machine of two CPUs and five contexts, queued, timed or listed, and a switch.
fn random_moment(random: &mut Random) -> String {
    let mut text = String::from("context idle0\ncontext idle1\n");
    let mut behind = String::new();
    for number in 0..5 {
        let prio = 10 + random.below(20);
        let (cpu, vtime) = (random.below(2), random.below(3) * 1000);
        let (words, line) = match random.below(6) {
            0 => (" wake=1s".to_string(), format!("timer {cpu} c{number}\n")),
            1 => (" status=Blocked".to_string(), format!("queue {cpu} c{number}\n")),
            2 => (String::new(), format!("local {cpu} c{number}\n")),
            3 => (
                " wake=1s".to_string(),
                format!("timer {cpu} c{number}\nqueue {cpu} c{number}\n"),
            ),
            _ => (String::new(), format!("queue {cpu} c{number}\n")),
        };
        text += &format!("context c{number} prio={prio} vtime={vtime}{words}\n");
        behind += &line;
    }
    text += "context busy\n";
    let holder = ["", " sched_ctxt=busy"][random.below(2) as usize];
    let counter = [0, 1, 2, 16][random.below(4) as usize];
    text += &format!(
        "cpu 0 idle_ctxt=idle0{holder} schedule_time=990ms steal_counter={counter} v={}\n",
        random.below(3) * 1000
    );
    text += "cpu 1 idle_ctxt=idle1\n";
    text + &behind + "call switch 0 1s\n"
}
