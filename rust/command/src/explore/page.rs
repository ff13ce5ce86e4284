//! The page: the machine, a switch for each lock, and what each state comes to. It needs nothing from elsewhere.

mod data;
mod machine;
mod tables;

use super::dimension::Space;
use super::group::Grouping;
use super::paint::{Looks, PATTERNS};
use super::says::{HELD, many, states};
use super::{Explored, Whole, picture};
use crate::svg::escaped;
use data::Shown;
use std::fmt::Write;

/// A page holds so many states.
const STATES: u64 = 1 << 16;
const TEMPLATE: &str = include_str!("page/page.html");
const STYLE: &str = include_str!("page/page.css");
const SCRIPT: &str = include_str!("page/page.js");

/// The page, or why there is none.
pub fn page(explored: &Explored, whole: &Whole, looks: &Looks, grid: Option<(usize, usize)>) -> Result<String, String> {
    let (moment, space) = (&explored.moment, &explored.space);
    let Whole { main, winners, late } = whole;
    if space.total > STATES {
        let idle: Vec<&str> = main
            .idle
            .iter()
            .map(|word| space.dimensions[*word].name.as_str())
            .collect();
        let fix = match idle.is_empty() {
            true => "--fix keeps locks as they are".to_string(),
            false => format!("--fix {} keeps those that make no difference", idle.join(",")),
        };
        return Err(format!(
            "--html: {} states; a page holds up to {STATES}: {fix}",
            space.total
        ));
    }
    let own = space.state_of(&moment.words).unwrap_or(0);
    let shown = winners.as_ref().unwrap_or(main);
    let (data, first) = data::data(explored, main, &looks.main, own);
    let title = format!("{}: {}", moment.file, crate::calls::told(&moment.call, &moment.names));
    let stay = match explored.stay.is_empty() {
        true => String::new(),
        false => format!(
            "As they are, since held they only give refusal 6: {}.",
            explored.stay.join(", ")
        ),
    };
    let drawn = |svg: String| format!("<figure>{svg}</figure>");
    let parts = [
        ("{{TITLE}}", escaped(&title)),
        (
            "{{SUMMARY}}",
            escaped(&format!(
                "{} of {}",
                states(space.total),
                many(space.dimensions.len() as u64, "lock")
            )),
        ),
        ("{{STAY}}", escaped(&stay)),
        ("{{FIRST}}", first_values(space).to_string()),
        (
            "{{HELD}}",
            if whole.speaks_of_held(space) {
                format!("<p>A context is {HELD}.</p>")
            } else {
                String::new()
            },
        ),
        ("{{PATTERNS}}", PATTERNS.to_string()),
        ("{{SWITCHES}}", switches(space, main, own)),
        ("{{OUTCOME}}", outcome(&first, own, space)),
        ("{{MACHINE}}", machine::machine(moment, space)),
        ("{{GROUPS}}", tables::groups(explored, main, &looks.main)),
        (
            "{{WINNERS}}",
            winners.as_ref().map_or_else(String::new, |winners| {
                tables::by_winner(explored, winners, &looks.drawn)
            }),
        ),
        (
            "{{LATE}}",
            late.as_ref()
                .map_or_else(String::new, |late| tables::lateness(explored, late)),
        ),
        ("{{TREE}}", drawn(picture::only_tree(explored, shown, &looks.drawn))),
        (
            "{{GRID}}",
            grid.map_or_else(String::new, |pair| {
                drawn(picture::only_grid(explored, shown, &looks.drawn, pair))
            }),
        ),
        ("{{STYLE}}", STYLE.to_string()),
        ("{{SCRIPT}}", SCRIPT.to_string()),
        // Last, so that no mark in it is looked for.
        ("{{DATA}}", data.to_string().replace("</", "<\\/")),
    ];
    Ok(parts
        .into_iter()
        .fold(TEMPLATE.to_string(), |page, (mark, part)| page.replace(mark, &part)))
}

/// What the first values of all words are called.
fn first_values(space: &Space) -> &'static str {
    let free = |label: &String| label == "free" || label == "no";
    match space.dimensions.iter().all(|dimension| free(&dimension.labels[0])) {
        true => "All free",
        false => "First values",
    }
}

fn switches(space: &Space, main: &Grouping, own: u64) -> String {
    let mut out = String::new();
    for (at, dimension) in space.dimensions.iter().enumerate() {
        let note = if main.idle.contains(&at) {
            " <small>no difference here</small>"
        } else {
            ""
        };
        let _ = write!(out, "<fieldset><legend>{}{note}</legend>", escaped(&dimension.name));
        for (value, label) in dimension.labels.iter().enumerate() {
            let checked = if space.digit(own, at) == value { " checked" } else { "" };
            let _ = write!(
                out,
                "<label><input type=\"radio\" name=\"w{at}\" value=\"{value}\"{checked}> {}</label>",
                escaped(label)
            );
        }
        out.push_str("</fieldset>\n");
    }
    out
}

fn chip(letter: &str, look: usize) -> String {
    format!(
        "<svg class=\"chip\" width=\"40\" height=\"26\" aria-hidden=\"true\"><rect x=\"0.5\" y=\"0.5\" width=\"39\" height=\"25\" \
         fill=\"url(#look{look})\" stroke=\"#111\"/><text x=\"20\" y=\"18\">{}</text></svg>",
        escaped(letter)
    )
}

/// What the image's own state comes to: it stands there without a script too.
fn outcome(first: &Shown, own: u64, space: &Space) -> String {
    let way: Vec<String> = first
        .way
        .iter()
        .map(|sentence| format!("<li>{}</li>", escaped(sentence)))
        .collect();
    format!(
        "<p class=\"winner\"><span id=\"chip\">{}</span> <strong id=\"winner\">{}</strong></p>\n<p>Group <b id=\"group\">{}</b>: \
         <span id=\"says\">{}</span></p>\n<p id=\"late\">{}</p>\n<h3>The way there</h3>\n<ol id=\"way\">{}</ol>\n\
         <p class=\"state\">State <output id=\"state\">{own}</output> of {} (0 to {}). <code>--pick <span id=\"pick\">{own}</span> -o state.txt</code> writes it as a trace.</p>",
        chip(&first.letter, first.look),
        escaped(&first.winner),
        escaped(&first.letter),
        escaped(&first.says),
        escaped(first.late.as_deref().unwrap_or("")),
        way.join(""),
        space.total,
        space.total - 1
    )
}
