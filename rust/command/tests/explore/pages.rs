//! Pages and pictures.

use super::{Random, STEAL, json, kept, printed, random_moment};
use serde_json::Value;
use std::fs;

/// What the page tells of each state of random moments agrees with what it comes to: timers that were woken were served,
/// those that stay were kept, and whoever is taken was stolen.
#[test]
fn the_way_there_is_that_of_the_outcome() {
    let mut random = Random(7);
    let mut told = [0; 4];
    for number in 0..30 {
        let file = kept(&format!("way{number}.txt"), &random_moment(&mut random));
        let page = kept("way.html", "");
        let fix = "c0.addr_space,c1.addr_space";
        let names: Vec<String> = json(&["explore", &file])["dimensions"]
            .as_array()
            .unwrap()
            .iter()
            .map(|one| one["name"].as_str().unwrap().to_string())
            .collect();
        let fix: Vec<&str> = fix
            .split(',')
            .filter(|word| names.iter().any(|name| name == word))
            .collect();
        let fix = fix.join(",");
        let mut arguments = vec!["explore", &file, "--html", &page];
        if !fix.is_empty() {
            arguments.extend(["--fix", &fix]);
        }
        printed(&arguments);
        let text = fs::read_to_string(&page).unwrap();
        let data = text
            .split_once("id=\"data\">")
            .unwrap()
            .1
            .split_once("</script>")
            .unwrap()
            .0;
        let data: Value = serde_json::from_str(&data.replace("<\\/", "</")).unwrap();
        let spread = |runs: &Value| -> Vec<usize> {
            let each = runs.as_array().unwrap().iter();
            let number = |value: &Value| value.as_u64().unwrap() as usize;
            each.flat_map(|run| std::iter::repeat_n(number(&run[0]), number(&run[1])))
                .collect()
        };
        for (outcome, way) in spread(&data["cells"]).into_iter().zip(spread(&data["wayCells"])) {
            let says = data["outcomes"][outcome]["says"].as_str().unwrap();
            let parts: Vec<&str> = says.split(", ").collect();
            let mut due = 0;
            for sentence in data["ways"][way].as_array().unwrap() {
                let sentence = data["sentences"][sentence.as_u64().unwrap() as usize].as_str().unwrap();
                if let Some(rest) = sentence.strip_prefix("The timer of ") {
                    let name = rest.split(' ').next().unwrap();
                    let ends = [
                        ("it is woken.", "served"),
                        ("stays in the set.", "kept"),
                        ("is dropped.", "dropped"),
                    ];
                    let (at, (_, fate)) = ends
                        .iter()
                        .enumerate()
                        .find(|(_, (end, _))| rest.ends_with(end))
                        .unwrap();
                    assert!(
                        parts.contains(&&format!("timer of {name} {fate}")[..]),
                        "{file}: {sentence} {says}"
                    );
                    told[at] += 1;
                    due += 1;
                }
                if let Some((names, cpu)) = sentence
                    .strip_suffix('.')
                    .and_then(|sentence| sentence.split_once(" taken from the queue of "))
                {
                    for name in names.trim_end_matches(" is").trim_end_matches(" are").split(" and ") {
                        assert!(
                            parts.contains(&&format!("{name} stolen from {cpu}")[..]),
                            "{file}: {sentence} {says}"
                        );
                        told[3] += 1;
                    }
                }
            }
            let fates = parts
                .iter()
                .filter(|part| part.starts_with("timer of ") && !part.ends_with(" set"))
                .count();
            assert_eq!(due, fates, "{file}: {says}");
        }
    }
    assert!(told[0] > 100 && told[1] > 100 && told[3] > 20, "{told:?}");
}

/// Everything of a picture lies inside of it, and it says what it shows.
#[test]
fn pictures_keep_inside_their_frame() {
    let file = kept("picture.txt", STEAL);
    let svg = kept("picture.svg", "");
    for more in [
        &[][..],
        &["--for", "logger"],
        &["--grid", "clock.lock,cpu.0.queue_locked"],
    ] {
        printed(&[&["explore", &file, "switch", "1", "5ms", "--svg", &svg][..], more].concat());
        let text = fs::read_to_string(&svg).unwrap();
        let number = |tag: &str, name: &str| -> Option<f64> {
            let rest = tag.split_once(&format!(" {name}=\""))?.1;
            rest.split_once('"')?.0.parse().ok()
        };
        let (width, height) = (number(&text, "width").unwrap(), number(&text, "height").unwrap());
        assert!(
            text.contains("<title>") && text.contains("<desc>A: ") | text.contains("<desc>1: "),
            "{text}"
        );
        let body = text.split_once("</style>").unwrap().1;
        let mut seen = 0;
        for tag in body
            .split('<')
            .filter(|tag| tag.starts_with("rect") || tag.starts_with("text"))
        {
            let (x, y) = (number(tag, "x").unwrap(), number(tag, "y").unwrap());
            let (wide, tall) = (
                number(tag, "width").unwrap_or(0.0),
                number(tag, "height").unwrap_or(0.0),
            );
            assert!(x >= 0.0 && y >= 0.0 && x + wide <= width && y + tall <= height, "{tag}");
            seen += 1;
        }
        assert!(seen > 20);
    }
}
