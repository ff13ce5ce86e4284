//! `priorities`: weight and slice of each.

use crate::output::{self, word};
use crate::stop::{DONE, Ended};
use ronthuyal::words::tables::{SLICE_MAX, WEIGHTS};
use serde_json::json;
use std::io::{self, Write};

/// The priority that a new context has.
const USUAL: usize = 20;

pub fn priorities(as_json: bool) -> Ended {
    let mut out = io::BufWriter::new(io::stdout().lock());
    if !as_json {
        writeln!(out, "priority  weight  times that of {USUAL}  slice in virtual time")?;
    }
    for (priority, weight) in WEIGHTS.into_iter().enumerate() {
        let (times, slice) = (weight as f64 / WEIGHTS[USUAL] as f64, SLICE_MAX / weight);
        if as_json {
            let row = json!({ "priority": word(priority as u64), "weight": word(weight), "slice": word(slice) });
            output::line(&mut out, &row)?;
        } else {
            writeln!(out, "{priority:>8}  {weight:>6}  {times:>16.3}  {slice:>21}")?;
        }
    }
    if !as_json {
        writeln!(
            out,
            "A slice is 9 timer ticks, 20.25 ms, of any priority; over the weight it is what the deadline is moved by."
        )?;
    }
    out.flush()?;
    Ok(DONE)
}
