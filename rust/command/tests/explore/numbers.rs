//! Moments whose numbers are worked out by hand.

use super::{STEAL, groups, json, kept, moment, outcomes, texts, values};
use serde_json::Value;
use std::collections::BTreeMap;

/// README's moment with every lock of its image that does not only give refusal 6: lock and address space of the writer
/// (3 * 2) and of idle1 (3 * 2), the address spaces of idle (2) and of the rival, told apart in all three values (3), and
/// the queue of CPU 1 (2): 6 * 6 * 2 * 3 * 2 = 432. Free are both words of the writer in 1 of 3 * 2: 72. Its lock is
/// written in 1 of 3: 144, and its timer is kept in all of these.
#[test]
fn readmes_moment_has_432_states() {
    let all = json(&["explore", &moment(), "--vary", "all,rival.addr_space=none+free+written"]);
    assert_eq!(all["states"], "432");
    let outcomes = outcomes(&all);
    assert_eq!(outcomes.len(), 6 * 6 * 2 * 3 * 2);
    let (mut won, mut written) = (0, 0);
    for (state, outcome) in outcomes.into_iter().enumerate() {
        let values = values(&all, state as u64);
        let free = (values["writer.lock"], values["writer.addr_space"]) == ("free", "free");
        assert_eq!(outcome["in_charge"] == "writer", free, "{values:?}");
        won += u64::from(free);
        if values["writer.lock"] == "written" {
            written += 1;
            assert_eq!(outcome["timers"], serde_json::json!([["kept", "writer"]]));
        }
    }
    assert_eq!((won, written), (432 / (3 * 2), 432 / 3));
    let winner = all["groups"]
        .as_array()
        .unwrap()
        .iter()
        .find(|group| group["in_charge"] == "writer")
        .unwrap();
    assert_eq!(
        texts(&winner["when"]),
        ["writer.lock is free and writer.addr_space is free"]
    );
    let idle = [
        "idle.addr_space",
        "idle1.lock",
        "idle1.addr_space",
        "rival.addr_space",
        "cpu.1.queue_locked",
    ];
    assert_eq!(texts(&all["no_difference"]), idle);
}

/// By itself the switch tries the two words of the writer, who is the only one that CPU 0 names.
#[test]
fn readmes_moment_by_itself() {
    let all = json(&["explore", &moment()]);
    let dimensions = all["dimensions"].as_array().unwrap().iter();
    let names: Vec<&str> = dimensions.map(|one| one["name"].as_str().unwrap()).collect();
    assert_eq!(names, ["writer.lock", "writer.addr_space"]);
    assert_eq!(
        texts(&all["as_they_are"]),
        ["cpu.0.queue_locked", "rival.lock", "idle.lock"]
    );
}

/// README's table: not late with both free, 13.5 ms late where the lock was held at the cue. Where only the address space
/// was, the writer is queued by then, and wins the next switch. Held on, the address space keeps it off.
#[test]
fn lateness_is_that_of_the_readme() {
    let late = |more: &[&str]| -> Vec<(Option<u64>, String)> {
        let moment = moment();
        let all = json(&[&["explore", &moment, "--calls", "3"][..], more].concat());
        let groups = all["late"].as_array().unwrap().iter();
        let late = |group: &Value| group["late"].as_str().map(|late| late.parse().unwrap());
        groups
            .map(|group| (late(group), texts(&group["when"]).join("; or ")))
            .collect()
    };
    let free = (Some(0), "writer.lock is free and writer.addr_space is free".to_string());
    let space = (
        Some(6_750_000),
        "writer.lock is free and writer.addr_space is written".to_string(),
    );
    let lock = (Some(13_500_000), "writer.lock is read or written".to_string());
    assert_eq!(late(&[]), [free.clone(), space, lock]);
    let never = (None, "writer.addr_space is written".to_string());
    let lock = (
        Some(13_500_000),
        "writer.lock is read or written and writer.addr_space is free".to_string(),
    );
    assert_eq!(late(&["--hold"]), [free, never, lock]);
}

/// CPU 1 is idle, its counter 0, and takes the first of three that it can: with the queue free, the writer in 1 of 6 of
/// its states, whatever the 36 of the others; the logger in 5 * 1 * 6; the clock in 5 * 5 * 1; else nobody.
#[test]
fn a_stealing_moment() {
    let file = kept("steal.txt", STEAL);
    let all = json(&["explore", &file, "switch", "1", "5ms"]);
    let stolen = |name: &str| format!("{name} in charge, {name} stolen from CPU 0");
    let want = [(stolen("writer"), 36), (stolen("logger"), 30), (stolen("clock"), 25)];
    let mut want: BTreeMap<String, u64> = want.into_iter().collect();
    want.insert("idle1 in charge".to_string(), 2 * 6 * 6 * 6 - 36 - 30 - 25);
    let got: BTreeMap<String, u64> = groups(&all)
        .into_iter()
        .map(|(says, states)| (says.to_string(), states))
        .collect();
    assert_eq!(got, want);
    // With an odd counter CPU 1 steals nothing, and tries no lock.
    let odd = kept(
        "odd.txt",
        &STEAL.replace("idle_ctxt=idle1", "idle_ctxt=idle1 steal_counter=1"),
    );
    assert_eq!(json(&["explore", &odd, "switch", "1", "5ms"])["states"], "1");
    // With a holder that is not idle only every 16th value steals.
    for (counter, states) in [(2, "1"), (8, "1"), (16, "432"), (17, "1")] {
        let text = STEAL.replace("context clock", "context clock\ncontext busy");
        let text = text.replace(
            "idle_ctxt=idle1",
            &format!("idle_ctxt=idle1 sched_ctxt=busy steal_counter={counter}"),
        );
        let file = kept("busy.txt", &text);
        assert_eq!(
            json(&["explore", &file, "switch", "1", "5ms"])["states"],
            states,
            "{counter}"
        );
    }
}
