//! Random moments.

use super::{Random, json, kept, outcomes, printed, random_moment, texts};
use serde_json::Value;

/// Of random moments: random states, written as traces, replay to what was said of them.
#[test]
fn picked_states_replay_to_what_was_said() {
    let mut random = Random(28);
    for number in 0..25 {
        let file = kept(&format!("random{number}.txt"), &random_moment(&mut random));
        let fix = ["c0", "c1.lock,c2.addr_space", "c3,c4.lock"][random.below(3) as usize];
        let words: Vec<&str> = fix.split(',').collect();
        let all = json(&["explore", &file]);
        let known = |word: &&&str| {
            all["dimensions"]
                .as_array()
                .unwrap()
                .iter()
                .any(|one| one["name"] == **word)
        };
        let fix: Vec<&str> = words.iter().filter(known).copied().collect();
        let fix = fix.join(",");
        let arguments = if fix.is_empty() {
            vec!["explore", &file]
        } else {
            vec!["explore", &file, "--fix", &fix]
        };
        let all = json(&arguments);
        let outcomes = outcomes(&all);
        for _ in 0..8 {
            let state = random.below(outcomes.len() as u64);
            let trace = kept(&format!("picked{number}.txt"), "");
            let pick = state.to_string();
            printed(&[&arguments[..], &["--pick", &pick, "-o", &trace]].concat());
            let replayed = printed(&["replay", &trace, "--json"]);
            let call: Value = serde_json::from_str(&replayed).unwrap();
            let outcome = outcomes[state as usize];
            for key in ["refusal", "result", "rule", "in_charge", "interrupt"] {
                assert_eq!(call[key], outcome[key], "{file}, state {state}: {key}");
            }
            let timers = outcome["timers"].as_array().unwrap();
            for fate in ["served", "kept", "lost", "dropped", "set"] {
                let met: Vec<&Value> = timers
                    .iter()
                    .filter(|timer| timer[0] == fate)
                    .map(|timer| &timer[1])
                    .collect();
                let want: Vec<&Value> = call["timers"][fate].as_array().unwrap().iter().collect();
                assert_eq!(met, want, "{file}, state {state}: {fate}");
            }
        }
    }
}

/// What is not varied by itself makes no difference: of random moments every other lock of the image is run too, a few
/// at a time.
#[test]
fn other_locks_make_no_difference() {
    let mut random = Random(14);
    for number in 0..40 {
        let file = kept(&format!("others{number}.txt"), &random_moment(&mut random));
        let own = json(&["explore", &file]);
        let names = |all: &Value| -> Vec<String> {
            all["dimensions"]
                .as_array()
                .unwrap()
                .iter()
                .map(|one| one["name"].as_str().unwrap().to_string())
                .collect()
        };
        let own_names = names(&own);
        let contexts = (0..5)
            .map(|number| format!("c{number}"))
            .chain(["idle0", "idle1", "busy"].map(str::to_string));
        let locks = contexts.flat_map(|name| [format!("{name}.lock"), format!("{name}.addr_space")]);
        let locks = locks.chain(["cpu.0.queue_locked", "cpu.1.queue_locked"].map(str::to_string));
        let stay = texts(&own["as_they_are"]);
        let others: Vec<String> = locks
            .filter(|lock| !own_names.contains(lock) && !stay.contains(&lock.as_str()))
            .collect();
        for some in others.chunks(3) {
            // Half of the own locks are kept as they are, so that the states are few.
            let fixed: Vec<&str> = own_names
                .iter()
                .filter(|_| random.below(2) == 0)
                .map(String::as_str)
                .collect();
            let (vary, fix) = (some.join(","), fixed.join(","));
            let mut arguments = vec!["explore", &file, "--vary", &vary];
            if !fix.is_empty() {
                arguments.extend(["--fix", &fix]);
            }
            let all = json(&arguments);
            let idle = texts(&all["no_difference"]);
            assert!(
                some.iter().all(|lock| idle.contains(&lock.as_str())),
                "{file}: {some:?}, idle {idle:?}"
            );
        }
    }
}
