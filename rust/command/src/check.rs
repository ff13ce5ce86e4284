//! `check`: whether images are accepted, which word is wrong, and what is odd.

use crate::calls::{self, Last};
use crate::happened::Happened;
use crate::load::{self, Loaded};
use crate::output::{self, named, word};
use crate::progress::Progress;
use crate::stop::{DIFFERS, DONE, Ended, NOT_UNDERSTOOD, REFUSED, Stop};
use rayon::prelude::*;
use ronthuyal::words::tidy::warnings;
use ronthuyal::words::{Call, Explanation, View, explain};
use serde_json::{Value, json};
use std::io::{self, Write};
use std::path::{Path, PathBuf};
use std::sync::atomic::{AtomicU64, Ordering};

/// What is said of one file.
struct Report {
    code: u8,
    lines: Vec<String>,
    json: Value,
}

pub fn check(files: &[PathBuf], call: Option<&str>, as_json: bool) -> Ended {
    // Files are read on all cores and told in their order.
    let (progress, read) = (Progress::files(files.len()), AtomicU64::new(0));
    let report = |path: &PathBuf| {
        progress.tell(read.fetch_add(1, Ordering::Relaxed));
        one(path, call)
    };
    let reports: Vec<Result<Report, Stop>> = files.par_iter().map(report).collect();
    drop(progress);
    let mut out = io::BufWriter::new(io::stdout().lock());
    let mut code = DONE;
    for report in reports {
        let report = report.unwrap_or_else(|stop| Report {
            code: stop.code,
            json: json!({ "accepted": false, "problems": stop.lines }),
            lines: stop.lines,
        });
        code = worse(code, report.code);
        match as_json {
            true => output::line(&mut out, &report.json)?,
            false => report.lines.iter().try_for_each(|line| writeln!(out, "{line}"))?,
        }
    }
    out.flush()?;
    Ok(code)
}

/// What is not understood says more than what is refused.
fn worse(one: u8, other: u8) -> u8 {
    [NOT_UNDERSTOOD, REFUSED, DIFFERS]
        .into_iter()
        .find(|code| *code == one || *code == other)
        .unwrap_or(DONE)
}

fn one(path: &Path, call: Option<&str>) -> Result<Report, Stop> {
    let loaded = load::load(path)?.whole()?;
    let parsed = call.map(|text| calls::parse(text.split_whitespace(), loaded.names(), Last::default()));
    let call = parsed
        .transpose()
        .map_err(|says| Stop::not_understood(format!("--call: {says}")))?;
    if let Some(why) = explain::image(loaded.words(), &loaded.labels()) {
        return Ok(refused(&loaded, &why, None));
    }
    let mut report = accepted(&loaded);
    let Some(call) = call else {
        return Ok(report);
    };
    match made(&loaded, &call)? {
        Some(why) => {
            let refused = refused(&loaded, &why, Some(&call));
            report.code = refused.code;
            report.lines.extend(refused.lines);
            report.json = refused.json;
        }
        None => {
            let told = calls::told(&call, loaded.names());
            report.lines.push(format!("{}: {told} is accepted", path.display()));
        }
    }
    Ok(report)
}

/// Why a call on a copy is refused.
fn made(loaded: &Loaded, call: &Call) -> Result<Option<Explanation>, Stop> {
    let mut copy = loaded.words().to_vec();
    let mut happened = Happened::default();
    let answer = happened.make(&mut copy, call, &loaded.labels());
    match answer {
        Err(disagreement) => Err(Stop::not_understood(disagreement.0)),
        Ok(_) => Ok(happened.why),
    }
}

/// What is odd about an image that is accepted.
fn accepted(loaded: &Loaded) -> Report {
    let view = View::new(loaded.words());
    let (cpus, contexts) = view.map_or((0, 0), |view| (view.cpus(), view.contexts()));
    let odd = warnings(loaded.words(), &loaded.labels());
    let tidy = !odd.iter().any(|warning| warning.untidy);
    let many = |count: usize, what: &str| format!("{count} {what}{}", if count == 1 { "" } else { "s" });
    let sizes = format!("{}, {}", many(cpus, "CPU"), many(contexts, "context"));
    let tidiness = if tidy { "tidy" } else { "not tidy" };
    let file = loaded.path.display().to_string();
    let mut lines = vec![format!("{file}: accepted, {tidiness}: {sizes}")];
    let mut told = Vec::new();
    for warning in odd {
        let kind = if warning.untidy { "not tidy" } else { "warning" };
        lines.push(format!("{}{kind}: {}", loaded.at(Some(warning.word)), warning.says));
        let line = loaded.labels().line(warning.word);
        told.push(json!({ "untidy": warning.untidy, "word": warning.word, "says": warning.says, "line": line }));
    }
    Report {
        code: DONE,
        lines,
        json: json!({ "file": file, "accepted": true, "tidy": tidy, "warnings": told }),
    }
}

fn refused(loaded: &Loaded, why: &Explanation, call: Option<&Call>) -> Report {
    let at = loaded.at(why.word);
    let of = call.map_or(String::new(), |call| {
        format!("{} is ", calls::told(call, loaded.names()))
    });
    let wrong = why.word.map(|index| {
        let (name, value) = named(&loaded.packed, index);
        json!({ "word": index, "name": name, "shown": value, "value": word(loaded.words()[index]),
            "line": loaded.labels().line(index) })
    });
    Report {
        code: REFUSED,
        lines: vec![format!("{at}{of}refused with {}: {why}", why.refusal)],
        json: json!({ "file": loaded.path.display().to_string(), "accepted": false, "refusal": word(why.refusal),
            "word": wrong, "other": why.other, "wrong": why.wrong, "allowed": why.allowed }),
    }
}
