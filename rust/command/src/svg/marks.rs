//! The marks above a lane.

use super::lane::{Lane, Mark, Noted};
use super::scale::{LEFT, MARK, RIGHT, Scale, escaped};
use ronthuyal::words::value::show_time;
use std::fmt::Write;

/// Marks that would lie over each other are drawn as one, with their number.
pub fn marks(out: &mut String, scale: &Scale, lane: &Lane, y: f64) {
    let mut groups: Vec<(f64, Vec<&Noted>)> = Vec::new();
    for mark in &lane.marks {
        let x = scale.x(mark.0).clamp(LEFT + MARK / 2.0, RIGHT - MARK / 2.0);
        match groups.last_mut() {
            Some((last, group)) if x - *last < MARK + 2.0 => group.push(mark),
            _ => groups.push((x, vec![mark])),
        }
    }
    for (x, group) in groups {
        let told: Vec<String> = group
            .iter()
            .take(8)
            .map(|(time, _, says)| format!("{}: {says}", show_time(*time)))
            .collect();
        let more = group.len().saturating_sub(8);
        let more = if more > 0 {
            format!("; and {more} more")
        } else {
            String::new()
        };
        let _ = write!(
            out,
            "<g class=\"marks\" data-x=\"{x}\"><title>{}{more}</title>",
            escaped(&told.join("; "))
        );
        match group[..] {
            [(_, mark, _)] => shape(out, *mark, x, y),
            _ => {
                let _ = write!(
                    out,
                    "<rect class=\"mark\" x=\"{}\" y=\"{}\" width=\"{MARK}\" height=\"{MARK}\"/>\
                     <text class=\"count\" x=\"{x}\" y=\"{}\">{}</text>",
                    x - MARK / 2.0,
                    y - MARK / 2.0,
                    y + 3.0,
                    group.len().min(99)
                );
            }
        }
        out.push_str("</g>\n");
    }
}

pub fn shape(out: &mut String, mark: Mark, x: f64, y: f64) {
    let r = MARK / 2.0 - 1.0;
    let points = |list: &[(f64, f64)]| {
        let told: Vec<String> = list
            .iter()
            .map(|(dx, dy)| format!("{:.2},{:.2}", x + dx, y + dy))
            .collect();
        told.join(" ")
    };
    let _ = match mark {
        Mark::WakeUp => write!(
            out,
            "<polygon class=\"mark solid\" points=\"{}\"/>",
            points(&[(0.0, -r), (r, r), (-r, r)])
        ),
        Mark::Theft => {
            write!(
                out,
                "<polygon class=\"mark\" points=\"{}\"/>",
                points(&[(0.0, -r), (r, 0.0), (0.0, r), (-r, 0.0)])
            )
        }
        Mark::Interrupt => write!(
            out,
            "<circle class=\"mark\" cx=\"{x}\" cy=\"{y}\" r=\"{r}\"/><circle class=\"solid\" cx=\"{x}\" cy=\"{y}\" r=\"1.8\"/>"
        ),
        Mark::Refused => write!(
            out,
            "<path class=\"mark\" d=\"M{:.2} {:.2}L{:.2} {:.2}M{:.2} {:.2}L{:.2} {:.2}\"/>",
            x - r,
            y - r,
            x + r,
            y + r,
            x - r,
            y + r,
            x + r,
            y - r
        ),
    };
}
