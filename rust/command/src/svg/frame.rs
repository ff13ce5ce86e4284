//! The axis below the lanes, and the legend.

use super::Recorder;
use super::lane::Mark;
use super::marks::shape;
use super::scale::{LEFT, LETTER, MARK, RIGHT, Scale};
use ronthuyal::words::value::show_time;
use std::fmt::Write;

pub fn axis(out: &mut String, scale: &Scale, recorder: &Recorder, y: f64) {
    let first = recorder.first.unwrap_or(recorder.now);
    let _ = writeln!(
        out,
        "<g class=\"time\">\n<line class=\"axis\" x1=\"{LEFT}\" y1=\"{y}\" x2=\"{RIGHT}\" y2=\"{y}\"/>"
    );
    let step = step((scale.to - scale.from) / 7);
    let mut at = 0;
    while let Some(time) = first.checked_add(at).filter(|time| *time <= scale.to) {
        let x = scale.x(time);
        let _ = writeln!(
            out,
            "<line class=\"axis\" x1=\"{x}\" y1=\"{y}\" x2=\"{x}\" y2=\"{}\"/>\n<text class=\"label tick\" x=\"{x}\" y=\"{}\">{}</text>",
            y + 5.0,
            y + 19.0,
            show_time(at)
        );
        at += step;
    }
    let says = format!("time after {}", show_time(first));
    let _ = writeln!(
        out,
        "<text class=\"section\" x=\"{LEFT}\" y=\"{}\">{says}</text>\n</g>",
        y + 38.0
    );
}

/// The next of 1, 2, 5, 10, .. that is not less.
fn step(least: u64) -> u64 {
    let mut power = 1_u64;
    while power.saturating_mul(10) <= least {
        power = power.saturating_mul(10);
    }
    let steps = [1, 2, 5, 10].map(|times| power.saturating_mul(times));
    steps.into_iter().find(|step| *step >= least).unwrap_or(steps[3])
}

pub fn legend(out: &mut String, y: f64) {
    out.push_str("<g class=\"legend\">\n");
    let mut x = 16.0;
    let bars = [
        ("running", "running"),
        ("waiting", "waiting"),
        ("blocked", "blocked"),
        ("out", "stopped or gone"),
        ("idle", "idle CPU"),
        ("many", "many changes"),
    ];
    for (class, says) in bars {
        let thin = matches!(class, "blocked" | "out");
        let (top, tall) = if thin { (y + 5.0, 6.0) } else { (y, 16.0) };
        let _ = writeln!(
            out,
            "<rect class=\"bar {class}\" x=\"{x}\" y=\"{top}\" width=\"26\" height=\"{tall}\"/>"
        );
        let _ = writeln!(out, "<text x=\"{}\" y=\"{}\">{says}</text>", x + 34.0, y + 12.0);
        x += 60.0 + says.len() as f64 * LETTER;
    }
    let mut x = 16.0;
    for mark in [Mark::WakeUp, Mark::Theft, Mark::Interrupt, Mark::Refused] {
        shape(out, mark, x + 13.0, y + 38.0);
        let _ = writeln!(
            out,
            "<text x=\"{}\" y=\"{}\">{}</text>",
            x + 34.0,
            y + 42.0,
            mark.name()
        );
        x += 60.0 + mark.name().len() as f64 * LETTER;
    }
    let _ = writeln!(
        out,
        "<rect class=\"mark\" x=\"{}\" y=\"{}\" width=\"{MARK}\" height=\"{MARK}\"/><text class=\"count\" x=\"{}\" y=\"{}\">3</text>\
         <text x=\"{}\" y=\"{}\">several at once</text>\n</g>",
        x + 7.0,
        y + 32.0,
        x + 13.0,
        y + 41.0,
        x + 34.0,
        y + 42.0
    );
}
