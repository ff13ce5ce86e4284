//! Lanes as SVG: readable in black and white, with text that a screen reader finds.

use super::Recorder;
use super::bars::{draw, says};
use super::frame::{axis, legend};
use super::scale::{HEAD, LANE, Scale, TOP, WIDTH, escaped};
use ronthuyal::words::value::show_time;
use std::fmt::Write;

/// Patterns and sizes; nothing is told by colour alone.
const STYLE: &str = "<defs>\n\
     <pattern id=\"waits\" width=\"8\" height=\"8\" patternUnits=\"userSpaceOnUse\" patternTransform=\"rotate(45)\">\
     <rect width=\"8\" height=\"8\" fill=\"#fff\"/><rect width=\"2\" height=\"8\" fill=\"#9a9a9a\"/></pattern>\n\
     <pattern id=\"idles\" width=\"6\" height=\"6\" patternUnits=\"userSpaceOnUse\">\
     <rect width=\"6\" height=\"6\" fill=\"#fff\"/><circle cx=\"3\" cy=\"3\" r=\"0.8\" fill=\"#8a8a8a\"/></pattern>\n\
     </defs>\n\
     <style>\n\
     text { font-family: 'DejaVu Sans', Verdana, sans-serif; font-size: 12px; fill: #111 }\n\
     .heading { font-size: 15px; font-weight: bold }\n\
     .section { font-size: 12px; fill: #444 }\n\
     .bar { stroke: #111; stroke-width: 1 }\n\
     .charge0 { fill: #fff } .charge1 { fill: #d5dceb } .charge2 { fill: #f0e8d2 } .charge3 { fill: #c2cad8 }\n\
     .idle { fill: url(#idles) } .absent { fill: #fff; stroke-dasharray: 2 3 }\n\
     .running { fill: #1d3557 }\n\
     .waiting { fill: url(#waits) } .blocked { fill: #ddd } .out { fill: #fff; stroke-dasharray: 2 3 }\n\
     .many { fill: #666 }\n\
     .axis { stroke: #111; stroke-width: 1 } .rule { stroke: #ccc; stroke-width: 1 }\n\
     .mark { stroke: #111; stroke-width: 1.5; fill: #fff } .solid { fill: #111 }\n\
     .count { font-size: 9px; text-anchor: middle }\n\
     .label { text-anchor: middle } .on-dots { paint-order: stroke; stroke: #fff; stroke-width: 4px }\n\
     .on-dark { fill: #fff } .name { text-anchor: end }\n\
     </style>\n";

pub fn picture(recorder: &Recorder, title: &str) -> String {
    let scale = Scale::new(recorder);
    let lanes = recorder.cpus.len() + recorder.contexts.len();
    let bottom = TOP + LANE * lanes as f64 + 2.0 * HEAD;
    let height = bottom + 120.0;
    let mut out = String::new();
    head(&mut out, recorder, title, height);
    let mut y = TOP;
    section(&mut out, &mut y, "CPUs: who is in charge");
    for lane in &recorder.cpus {
        draw(&mut out, &scale, recorder, lane, &mut y);
    }
    let contexts = match recorder.left_out {
        0 => "Contexts: running, waiting or blocked".to_string(),
        more => format!("Contexts: running, waiting or blocked ({more} more; --lanes chooses)"),
    };
    section(&mut out, &mut y, &contexts);
    for (_, lane) in &recorder.contexts {
        draw(&mut out, &scale, recorder, lane, &mut y);
    }
    axis(&mut out, &scale, recorder, bottom);
    legend(&mut out, bottom + 58.0);
    out.push_str("</svg>\n");
    out
}

fn head(out: &mut String, recorder: &Recorder, title: &str, height: f64) {
    let _ = writeln!(
        out,
        "<svg xmlns=\"http://www.w3.org/2000/svg\" viewBox=\"0 0 {WIDTH} {height}\" width=\"{WIDTH}\" height=\"{height}\" \
         role=\"img\" aria-labelledby=\"title desc\">"
    );
    let _ = writeln!(
        out,
        "<title id=\"title\">{}</title>",
        escaped(&heading(recorder, title))
    );
    let _ = writeln!(out, "<desc id=\"desc\">{}</desc>", escaped(&described(recorder)));
    out.push_str(STYLE);
    let _ = writeln!(
        out,
        "<rect class=\"page\" x=\"0\" y=\"0\" width=\"{WIDTH}\" height=\"{height}\" fill=\"#fff\"/>"
    );
    let _ = writeln!(
        out,
        "<text class=\"heading\" x=\"16\" y=\"28\">{}</text>",
        escaped(&heading(recorder, title))
    );
    if recorder.cut {
        let says = format!(
            "The picture ends at {}: a shorter part, by --until, shows what follows.",
            show_time(recorder.now)
        );
        let _ = writeln!(out, "<text x=\"16\" y=\"48\">{}</text>", escaped(&says));
    }
}

fn heading(recorder: &Recorder, title: &str) -> String {
    let first = recorder.first.unwrap_or(recorder.now);
    let plural = if recorder.calls == 1 { "" } else { "s" };
    format!(
        "{title}: {} call{plural} from {} to {}",
        recorder.calls,
        show_time(first),
        show_time(recorder.now)
    )
}

/// The lanes in words, the first changes of each.
fn described(recorder: &Recorder) -> String {
    let lanes = recorder
        .cpus
        .iter()
        .chain(recorder.contexts.iter().map(|(_, lane)| lane));
    let told = lanes.map(|lane| {
        let parts = lane.parts.iter().take(12);
        let parts: Vec<String> = parts
            .map(|(from, shown)| format!("{} {}", when(*from), says(recorder, *shown)))
            .collect();
        let more = if lane.parts.len() > 12 { ", and so on" } else { "" };
        let marks: Vec<&str> = lane.marks.iter().take(6).map(|(_, _, says)| says.as_str()).collect();
        let marks = if marks.is_empty() {
            String::new()
        } else {
            format!("; {}", marks.join("; "))
        };
        format!("{}: {}{more}{marks}.", lane.name, parts.join(", "))
    });
    told.collect::<Vec<_>>().join(" ")
}

pub fn when(from: u64) -> String {
    match from {
        0 => "at first".to_string(),
        _ => format!("from {}", show_time(from)),
    }
}

fn section(out: &mut String, y: &mut f64, says: &str) {
    let _ = writeln!(
        out,
        "<text class=\"section\" x=\"16\" y=\"{}\">{says}</text>",
        *y + 14.0
    );
    *y += HEAD;
}
