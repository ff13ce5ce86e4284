//! The machine drawn: CPUs, queues in the order of their keys, timers and lists.

use super::super::dimension::Space;
use super::super::moment::Moment;
use crate::svg::escaped;
use ronthuyal::words::value::{show, show_time};
use ronthuyal::words::{Unit, View, block, context, record_at};
use std::fmt::Write;

pub fn machine(moment: &Moment, space: &Space) -> String {
    let view = moment.view();
    let mut out = String::new();
    for cpu in view.present_cpus() {
        cpu_box(&mut out, moment, space, cpu);
    }
    let named = |number: u64| {
        view.present_cpus().any(|cpu| {
            let seats = [block::CURRENT_CTXT, block::SCHED_CTXT, block::IDLE_CTXT];
            seats.iter().any(|seat| view.block(cpu, *seat) == number)
                || view.queue(cpu).any(|other| other == number)
                || view.timers(cpu).any(|(_, other)| other == number)
                || listed(view, cpu, LOCAL)
                    .chain(listed(view, cpu, IPI))
                    .any(|other| other == number)
        })
    };
    let others: Vec<u64> = (0..view.contexts() as u64).filter(|number| !named(*number)).collect();
    if !others.is_empty() {
        out.push_str("<section class=\"cpu\"><h3>Named by no CPU</h3>\n");
        boxes(
            &mut out,
            "",
            others.iter().map(|number| entry(moment, space, *number, &[])).collect(),
            "",
        );
        out.push_str("</section>\n");
    }
    out
}

const LOCAL: (usize, usize) = (block::LOCAL_COUNT, block::LOCAL_WAKEUP_LIST);
const IPI: (usize, usize) = (block::IPI_COUNT, block::IPI_CONTEXT_WAKEUP_LIST);

fn listed(view: View<'_>, cpu: usize, (count, list): (usize, usize)) -> impl Iterator<Item = u64> {
    (0..view.used(cpu, count)).map(move |slot| view.block(cpu, list + slot))
}

fn cpu_box(out: &mut String, moment: &Moment, space: &Space, cpu: usize) {
    let (view, names) = (moment.view(), &moment.names);
    let word = |word: usize| view.block(cpu, word);
    let here = if moment.here() == Some(cpu) {
        " <small>the call is made here</small>"
    } else {
        ""
    };
    let class = if moment.here() == Some(cpu) { "cpu here" } else { "cpu" };
    let _ = writeln!(out, "<section class=\"{class}\"><h3>CPU {cpu}{here}</h3>\n<dl>");
    let seats = [("current", block::CURRENT_CTXT), ("idle", block::IDLE_CTXT)];
    for (what, seat) in seats {
        let _ = writeln!(out, "<div><dt>{what}<dd>{}</div>", escaped(&names.of(word(seat))));
    }
    let numbers = [
        ("V", word(block::V).to_string()),
        ("total weight", word(block::TOTAL_WEIGHT).to_string()),
        ("last decision", show_time(word(block::SCHEDULE_TIME))),
        ("steal counter", word(block::STEAL_COUNTER).to_string()),
    ];
    for (what, value) in numbers {
        let _ = writeln!(out, "<div><dt>{what}<dd>{}</div>", escaped(&value));
    }
    let locked = view.block_at(cpu) + block::QUEUE_LOCKED;
    let _ = writeln!(
        out,
        "<div><dt>queue locked<dd>{}</div></dl>",
        badge(moment, space, locked)
    );
    let queue = view.queue(cpu).enumerate().map(|(slot, number)| {
        let value = |list: usize| view.block(cpu, list + slot);
        let facts = [
            ("deadline", value(block::KEY_VD).to_string()),
            ("slice", slice(moment, value(block::KEY_REM_SLICE))),
            ("vtime", value(block::ENTRY_VTIME).to_string()),
            ("weight", value(block::ENTRY_WEIGHT).to_string()),
        ];
        entry(moment, space, number, &facts)
    });
    let charged = word(block::SCHED_CTXT);
    let own = |word: usize| view.record(charged as usize, word);
    let facts = [
        ("deadline", own(context::VD).to_string()),
        ("slice", slice(moment, own(context::REM_SLICE))),
        ("vtime", own(context::VTIME).to_string()),
    ];
    out.push_str("<h4>In charge</h4>\n");
    boxes(out, "", vec![entry(moment, space, charged, &facts)], "");
    out.push_str("<h4>Queue, in the order of its keys</h4>\n");
    boxes(out, "queue", queue.collect(), "empty");
    let time = moment.call.time().unwrap_or(0).saturating_add(1);
    let timers = view.timers(cpu).map(|(wake, number)| {
        let due = if wake <= time && moment.here() == Some(cpu) {
            "due"
        } else {
            "later"
        };
        entry(
            moment,
            space,
            number,
            &[("wake", show_time(wake)), ("timer", due.to_string())],
        )
    });
    out.push_str("<h4>Timers</h4>\n");
    boxes(out, "", timers.collect(), "none");
    for (title, list) in [("Local list", LOCAL), ("Interrupt list", IPI)] {
        let names: Vec<String> = listed(view, cpu, list)
            .map(|number| entry(moment, space, number, &[]))
            .collect();
        if !names.is_empty() {
            let _ = writeln!(out, "<h4>{title}</h4>");
            boxes(out, "", names, "none");
        }
    }
    out.push_str("</section>\n");
}

/// The rest of a slice.
fn slice(moment: &Moment, value: u64) -> String {
    match &show(Unit::ScaledTicks, value, &moment.names)[..] {
        "slice" => "whole".to_string(),
        other => other.to_string(),
    }
}

fn boxes(out: &mut String, class: &str, all: Vec<String>, none: &str) {
    match all.is_empty() {
        true => {
            let _ = writeln!(out, "<p class=\"none\">{none}</p>");
        }
        false => {
            let _ = writeln!(out, "<ol class=\"boxes {class}\">{}</ol>", all.concat());
        }
    }
}

/// A context with what is said of it, its lock and its address space.
fn entry(moment: &Moment, space: &Space, number: u64, facts: &[(&str, String)]) -> String {
    let view = moment.view();
    let mut out = format!("<li><b>{}</b><dl>", escaped(&moment.names.of(number)));
    let status = view.record(number as usize, context::STATUS);
    let own = [
        ("prio", view.record(number as usize, context::PRIO).to_string()),
        ("status", show(Unit::Status, status, &moment.names)),
    ];
    for (what, value) in facts.iter().chain(&own) {
        let _ = write!(out, "<div><dt>{what}<dd>{}</div>", escaped(value));
    }
    for (what, word) in [("lock", context::LOCK), ("addr_space", context::ADDR_SPACE)] {
        let _ = write!(
            out,
            "<div><dt>{what}<dd>{}</div>",
            badge(moment, space, record_at(number as usize) + word)
        );
    }
    out + "</dl></li>"
}

/// The value of a lock; the script changes those that are varied.
fn badge(moment: &Moment, space: &Space, word: usize) -> String {
    let own = moment.words[word];
    match space.dimensions.iter().position(|dimension| dimension.word == word) {
        Some(at) => {
            let dimension = &space.dimensions[at];
            let value = dimension.values.iter().position(|value| *value == own).unwrap_or(0);
            let held = if value == 0 { "" } else { " held" };
            format!(
                "<span class=\"lock{held}\" data-word=\"{at}\">{}</span>",
                escaped(&dimension.labels[value])
            )
        }
        None => {
            let place = ronthuyal::words::Place::of(moment.words[0], moment.words[1], word);
            let unit = place.word().map_or(Unit::Items, |word| word.unit);
            let told = match unit {
                Unit::Mark => ["no", "yes"]
                    .get(own as usize)
                    .map_or(own.to_string(), |mark| mark.to_string()),
                _ => show(unit, own, &moment.names),
            };
            escaped(&told)
        }
    }
}
