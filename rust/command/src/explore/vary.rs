//! Which words are varied: the locks that a call tries and that other CPUs can hold; `ronthuyal_image::locks` says which.

use super::dimension::{Dimension, Space, short};
use super::moment::Moment;
use crate::stop::Stop;
use ronthuyal::words::text::Packed;
use ronthuyal::words::{Place, locks};

/// A word takes at most so many values.
const VALUES: usize = 64;

/// What is varied, and what stays.
pub struct Varied {
    pub space: Space,
    /// The words whose held value only gives refusal 6.
    pub stay: Vec<String>,
}

/// A word, and its values where they are named.
type Named = (Place, Option<Vec<u64>>);

/// The words of `moment`, with those that `--vary` adds and without those that `--fix` keeps.
pub fn varied(moment: &mut Moment, vary: &[String], fix: &[String]) -> Result<Varied, Stop> {
    let contexts = moment.view().contexts();
    let stay = locks::needed(moment.view(), &moment.call);
    let tried = locks::tried(moment.view(), &moment.call);
    let mut places: Vec<Named> = tried.into_iter().map(|place| (place, None)).collect();
    for asked in vary {
        let named = named(moment, asked, "--vary")?.into_iter();
        named
            .filter(|(place, _)| !stay.contains(place))
            .for_each(|one| add(&mut places, one));
    }
    for kept in fix {
        keep(moment, &mut places, kept)?;
    }
    let dimensions = places.into_iter().map(|(place, values)| {
        let values = values.unwrap_or_else(|| locks::values(moment.view(), place));
        Dimension::new(place, contexts, values, &moment.names)
    });
    Ok(Varied {
        space: Space::new(dimensions.collect()),
        stay: stay.into_iter().map(|place| short(place, &moment.names)).collect(),
    })
}

/// A word that is there already may get other values.
fn add(places: &mut Vec<Named>, (place, values): Named) {
    match places.iter_mut().find(|(other, _)| *other == place) {
        Some(known) => known.1 = values.or(known.1.take()),
        None => places.push((place, values)),
    }
}

/// What `--fix` names is not varied, and gets its value if there is one.
fn keep(moment: &mut Moment, places: &mut Vec<Named>, kept: &str) -> Result<(), Stop> {
    let wrong = |says: &str| Err(wrong("--fix", kept, says));
    let named = named(moment, kept, "--fix")?;
    let contexts = moment.view().contexts();
    for (place, values) in &named {
        let before = places.len();
        places.retain(|(other, _)| other != place);
        match values.as_deref() {
            Some([value]) => moment.words[place.index(contexts)] = *value,
            Some(_) => return wrong("a word is kept at one value, as writer.lock=free"),
            None if before == places.len() && named.len() == 1 => {
                return wrong("it is not varied; a varied word is, or a word with a value");
            }
            None => {}
        }
    }
    Ok(())
}

fn wrong(option: &str, given: &str, says: &str) -> Stop {
    Stop::not_understood(format!("{option} {given}: {says}"))
}

/// The words that an option names, with values where it gives some: `all`, `writer`, `writer.lock`,
/// `cpu.1.queue_locked`, `rival.addr_space=none+free+written`, and any word with values.
fn named(moment: &Moment, text: &str, option: &str) -> Result<Vec<Named>, Stop> {
    let view = moment.view();
    let known = |number: &u64| *number < view.contexts() as u64;
    let places = match moment.names.number(text).filter(known) {
        _ if text == "all" => locks::all(view),
        Some(number) => vec![locks::lock(number), locks::addr_space(number)],
        None => return word(moment, text, option).map(|one| vec![one]),
    };
    live(moment, text, option, places[0])?;
    Ok(places.into_iter().map(|place| (place, None)).collect())
}

/// A gone context has no lock.
fn live(moment: &Moment, text: &str, option: &str, place: Place) -> Result<(), Stop> {
    match place {
        Place::Record { context, .. } if moment.view().gone(context) => {
            let says = "it is gone, and a gone context has no lock; one that is there has";
            Err(wrong(option, text, says))
        }
        _ => Ok(()),
    }
}

/// One word, with its values if it has some.
fn word(moment: &Moment, text: &str, option: &str) -> Result<Named, Stop> {
    let wrong = |says: String| wrong(option, text, &says);
    let (name, values) = match text.split_once('=') {
        Some((name, values)) => (name.trim(), Some(values)),
        None => (text.trim(), None),
    };
    let full = ["context.", "cpu.", "word["].iter().any(|head| name.starts_with(head)) || !name.contains('.');
    let full = if full {
        name.to_string()
    } else {
        format!("context.{name}")
    };
    let packed = Packed::of(moment.words.clone(), moment.names.clone());
    let (index, _) = packed.place(&full).map_err(wrong)?;
    let place = Place::of(moment.words[0], moment.words[1], index);
    live(moment, text, option, place)?;
    if matches!(place, Place::Size(_)) {
        return Err(wrong(
            "the sizes are those of the image; words behind them are allowed".to_string(),
        ));
    }
    let Some(values) = values else {
        let says = format!("{full} is no lock; a lock is, or a word with values, as {name}=1+2");
        return if locks::is_lock(place) {
            Ok((place, None))
        } else {
            Err(wrong(says))
        };
    };
    let mut read: Vec<u64> = Vec::new();
    for value in values.split('+') {
        let (_, value) = packed.assigned(&full, value.trim()).map_err(wrong)?;
        if !read.contains(&value) {
            read.push(value);
        }
    }
    match read.len() {
        1..=VALUES => Ok((place, Some(read))),
        _ => Err(wrong("a word takes 1 to 64 values".to_string())),
    }
}
