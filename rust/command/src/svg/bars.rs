//! The bars of a lane, with their names.

use super::Recorder;
use super::draw::when;
use super::lane::{Lane, Shown};
use super::marks::marks;
use super::scale::{BAR, LANE, LEFT, LETTER, MARKS, NARROW, Scale, escaped};
use std::fmt::Write;

/// A bar of a lane.
struct Box {
    from: f64,
    to: f64,
    class: &'static str,
    label: String,
    says: String,
    count: usize,
}

pub fn says(recorder: &Recorder, shown: Shown) -> String {
    match shown {
        Shown::InCharge(number) => format!("{} is in charge", recorder.names.of(number)),
        Shown::Idle => "idle".to_string(),
        Shown::Absent => "absent".to_string(),
        Shown::Running(cpu) => format!("running on CPU {cpu}"),
        Shown::Waiting => "waiting".to_string(),
        Shown::Blocked => "blocked".to_string(),
        Shown::Out => "stopped, not started or gone".to_string(),
    }
}

fn class(shown: Shown) -> &'static str {
    match shown {
        Shown::InCharge(number) => ["charge0", "charge1", "charge2", "charge3"][number as usize % 4],
        Shown::Idle => "idle",
        Shown::Absent => "absent",
        Shown::Running(_) => "running",
        Shown::Waiting => "waiting",
        Shown::Blocked => "blocked",
        Shown::Out => "out",
    }
}

fn label(recorder: &Recorder, shown: Shown) -> String {
    match shown {
        Shown::InCharge(number) => recorder.names.of(number),
        Shown::Idle => "idle".to_string(),
        Shown::Running(cpu) => format!("CPU {cpu}"),
        Shown::Absent => "absent".to_string(),
        _ => String::new(),
    }
}

fn boxes(recorder: &Recorder, scale: &Scale, lane: &Lane) -> Vec<Box> {
    let mut boxes: Vec<Box> = Vec::new();
    for (at, (from, shown)) in lane.parts.iter().enumerate() {
        let until = lane.parts.get(at + 1).map_or(scale.to, |(next, _)| *next);
        let (left, right) = (scale.x(*from), scale.x(until));
        if right <= left && lane.parts.len() > 1 {
            continue;
        }
        let narrow = right - left < NARROW;
        if let Some(last) = boxes
            .last_mut()
            .filter(|last| narrow && last.to - last.from < 4.0 * NARROW && last.count > 0)
        {
            last.to = right;
            last.count += 1;
            last.class = "many";
            last.says = format!("{} changes", last.count);
            last.label.clear();
            continue;
        }
        boxes.push(Box {
            from: left,
            to: right,
            class: class(*shown),
            label: label(recorder, *shown),
            says: format!("{} {}", when(*from), says(recorder, *shown)),
            count: usize::from(narrow),
        });
    }
    boxes
}

pub fn draw(out: &mut String, scale: &Scale, recorder: &Recorder, lane: &Lane, y: &mut f64) {
    let bar = *y + MARKS;
    let name = escaped(&lane.name);
    let _ = writeln!(
        out,
        "<g class=\"lane\" data-lane=\"{name}\" data-y=\"{y}\" data-height=\"{LANE}\">"
    );
    let shortened = cut(&lane.name, LEFT - 24.0);
    let _ = writeln!(
        out,
        "<text class=\"name\" x=\"{}\" y=\"{}\">{}</text>",
        LEFT - 10.0,
        bar + 17.0,
        escaped(&shortened)
    );
    for part in boxes(recorder, scale, lane) {
        // What does not run is a thin bar.
        let thin = matches!(part.class, "blocked" | "out");
        let (top, tall) = if thin { (bar + 9.0, BAR - 18.0) } else { (bar, BAR) };
        let wide = ((part.to - part.from) * 100.0).round() / 100.0;
        let _ = writeln!(
            out,
            "<rect class=\"bar {}\" x=\"{}\" y=\"{top}\" width=\"{wide}\" height=\"{tall}\"><title>{}</title></rect>",
            part.class,
            part.from,
            escaped(&format!("{}: {}", lane.name, part.says))
        );
        let needed = part.label.chars().count() as f64 * LETTER + 6.0;
        if !part.label.is_empty() && needed <= wide {
            let dark = match part.class {
                "running" => " on-dark",
                "idle" => " on-dots",
                _ => "",
            };
            let _ = writeln!(
                out,
                "<text class=\"label{dark}\" x=\"{}\" y=\"{}\">{}</text>",
                ((part.from + part.to) * 50.0).round() / 100.0,
                bar + 17.0,
                escaped(&part.label)
            );
        }
    }
    marks(out, scale, lane, *y + MARKS / 2.0);
    out.push_str("</g>\n");
    *y += LANE;
}

/// As much of a name as there is room for: its beginning and its end.
fn cut(name: &str, room: f64) -> String {
    let most = (room / LETTER) as usize;
    let letters: Vec<char> = name.chars().collect();
    if letters.len() <= most {
        return name.to_string();
    }
    let end = most / 2;
    let (first, last) = (&letters[..most - end - 1], &letters[letters.len() - end..]);
    first.iter().chain(['…'].iter()).chain(last).collect()
}
