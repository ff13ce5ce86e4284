//! The geometry of the picture: lanes in their order, bars that meet and do not overlap, all inside the view, names for
//! a screen reader.

use std::fmt::Write;
use std::fs;
use std::path::{Path, PathBuf};
use std::process::Command;

#[derive(Debug, Clone, Copy)]
struct Rect {
    x: f64,
    y: f64,
    width: f64,
    height: f64,
}

fn attribute<'a>(tag: &'a str, name: &str) -> &'a str {
    let start = format!(" {name}=\"");
    let at = tag.find(&start).unwrap_or_else(|| panic!("{tag} has no {name}")) + start.len();
    &tag[at..at + tag[at..].find('"').unwrap()]
}

fn number(tag: &str, name: &str) -> f64 {
    attribute(tag, name).parse().unwrap()
}

fn rect(tag: &str) -> Rect {
    Rect {
        x: number(tag, "x"),
        y: number(tag, "y"),
        width: number(tag, "width"),
        height: number(tag, "height"),
    }
}

/// The parts of a picture that begin so.
fn tags<'a>(svg: &'a str, start: &str) -> Vec<&'a str> {
    let places = svg.match_indices(start).map(|(at, _)| at);
    places.map(|at| &svg[at..at + svg[at..].find('>').unwrap()]).collect()
}

fn drawn(name: &str, trace: &Path, arguments: &[&str]) -> String {
    let to = Path::new(env!("CARGO_TARGET_TMPDIR")).join(format!("{name}.svg"));
    let done = Command::new(env!("CARGO_BIN_EXE_ronthuyal"))
        .args(["replay", "--quiet", "--svg"])
        .arg(&to)
        .arg(trace)
        .args(arguments)
        .output()
        .unwrap();
    // Lists of a crowd fill up, and some of its calls are refused.
    let drawn = matches!(done.status.code(), Some(0 | 3));
    assert!(drawn, "{}", String::from_utf8_lossy(&done.stderr));
    fs::read_to_string(to).unwrap()
}

fn example(name: &str) -> PathBuf {
    Path::new(env!("CARGO_MANIFEST_DIR")).join("../../examples").join(name)
}

/// What holds of every picture; gives the names of its lanes.
fn geometry(svg: &str) -> Vec<String> {
    let root = tags(svg, "<svg ")[0];
    let (width, height) = (number(root, "width"), number(root, "height"));
    assert_eq!(attribute(root, "viewBox"), format!("0 0 {width} {height}"));
    assert!(svg.contains("<title id=\"title\">") && svg.contains("<desc id=\"desc\">"));
    assert_eq!(attribute(root, "aria-labelledby"), "title desc");
    for tag in tags(svg, "<rect class=") {
        let r = rect(tag);
        let inside = r.x >= 0.0 && r.y >= 0.0 && r.x + r.width <= width && r.y + r.height <= height;
        assert!(inside && r.width > 0.0 && r.height > 0.0, "{tag}");
    }
    for tag in tags(svg, "<text ") {
        assert!(
            (0.0..=width).contains(&number(tag, "x")) && (0.0..=height).contains(&number(tag, "y")),
            "{tag}"
        );
    }
    let mut names = Vec::new();
    let mut below = 0.0;
    for lane in svg.split("<g class=\"lane\"").skip(1) {
        let head = &lane[..lane.find('>').unwrap()];
        let (y, tall) = (number(head, "data-y"), number(head, "data-height"));
        assert!(y >= below, "lane {head} begins above the end of the one before");
        below = y + tall;
        let until = lane
            .find("</g>\n<g class=\"lane\"")
            .or(lane.find("</g>\n<text"))
            .or(lane.find("</g>\n<g class=\"time\""));
        lane_inside(&lane[..until.unwrap_or(lane.len())], y, below);
        names.push(attribute(head, "data-lane").to_string());
    }
    names
}

fn lane_inside(lane: &str, top: f64, bottom: f64) {
    let bars: Vec<Rect> = tags(lane, "<rect class=\"bar ").into_iter().map(rect).collect();
    assert!(!bars.is_empty(), "a lane without a bar: {lane}");
    for bar in &bars {
        assert!(
            bar.y >= top && bar.y + bar.height <= bottom,
            "{bar:?} is not in its lane"
        );
    }
    // From the left edge to the right one, each where the one before ends.
    assert_eq!(bars[0].x, 150.0);
    let last = bars[bars.len() - 1];
    assert!((last.x + last.width - 1176.0).abs() < 0.02, "{last:?}");
    for pair in bars.windows(2) {
        assert!((pair[0].x + pair[0].width - pair[1].x).abs() < 0.02, "{pair:?}");
    }
    let marks: Vec<f64> = tags(lane, "<g class=\"marks\"")
        .into_iter()
        .map(|tag| number(tag, "data-x"))
        .collect();
    for pair in marks.windows(2) {
        assert!(pair[1] - pair[0] >= 12.0, "marks at {pair:?} lie over each other");
    }
    assert!(marks.iter().all(|x| (156.0..=1170.0).contains(x)));
}

#[test]
fn the_moment() {
    let svg = drawn("moment", &example("moment.txt"), &[]);
    assert_eq!(geometry(&svg), ["CPU 0", "CPU 1", "rival", "writer"]);
    // The writer is woken at the second switch and in charge from the third on.
    assert!(svg.contains("<title>writer: at first blocked</title>"));
    assert!(svg.contains("<title>writer: from 1.00675s waiting</title>"));
    assert!(svg.contains("<title>writer: from 1.0135s running on CPU 0</title>"));
    assert!(svg.contains("<title>1.00675s: writer is woken by switch on CPU 0</title>"));
    assert!(svg.contains("<title>CPU 0: from 1.0135s writer is in charge</title>"));
}

/// What was before the first call is drawn, also where that call follows the image at once.
#[test]
fn the_state_before() {
    let path = Path::new(env!("CARGO_TARGET_TMPDIR")).join("before.txt");
    let text = "context idle\ncontext a\ncpu 0 idle_ctxt=idle\nqueue 0 a\ncall switch 0 5ms\n";
    fs::write(&path, text).unwrap();
    let svg = drawn("before", &path, &[]);
    assert_eq!(geometry(&svg), ["CPU 0", "a"]);
    assert!(svg.contains("<title>CPU 0: at first idle</title>"));
    assert!(svg.contains("<title>CPU 0: from 5ms a is in charge</title>"));
    assert!(svg.contains("<title>a: at first waiting</title>"));
}

#[test]
fn chosen_lanes_in_their_order() {
    let svg = drawn("chosen", &example("evening.txt"), &["--lanes", "clock,writer"]);
    assert_eq!(geometry(&svg), ["CPU 0", "CPU 1", "clock", "writer"]);
    for mark in [
        "renderer is taken from CPU 0",
        "sends an interrupt",
        "is refused with 6",
        "clock is woken by",
    ] {
        assert!(svg.contains(mark), "no mark says: {mark}");
    }
}

/// Many calls at one time and many bars narrower than a pixel: a machine of 4 CPUs and 64 contexts.
#[test]
fn a_crowd() {
    let mut trace = String::new();
    (0..4).for_each(|cpu| {
        let _ = writeln!(trace, "context idle{cpu}");
    });
    (0..60).for_each(|x| {
        let _ = writeln!(trace, "context a_writer_with_a_long_name_{x} prio={}", x % 40);
    });
    (0..4).for_each(|cpu| {
        let _ = writeln!(trace, "cpu {cpu} idle_ctxt=idle{cpu}");
    });
    (0..60).for_each(|x| {
        let _ = writeln!(trace, "queue {} a_writer_with_a_long_name_{x}", x % 4);
    });
    for call in 0..3000 {
        let step = [0, 1, 1_000, 7_000_000][call % 4];
        let time = if call == 0 {
            "5ms".to_string()
        } else {
            format!("+{step}")
        };
        let _ = writeln!(trace, "call switch {} {time}", call % 4);
        let _ = writeln!(
            trace,
            "call block {} +1 a_writer_with_a_long_name_{}",
            call % 4,
            call % 60
        );
        let _ = writeln!(
            trace,
            "call unblock_context {} +1 a_writer_with_a_long_name_{}",
            call % 4,
            call * 7 % 60
        );
    }
    let path = Path::new(env!("CARGO_TARGET_TMPDIR")).join("crowd.txt");
    fs::write(&path, trace).unwrap();
    let svg = drawn("crowd", &path, &[]);
    assert_eq!(geometry(&svg).len(), 4 + 16);
}
