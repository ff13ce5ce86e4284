//! `explore`: every lock state of one moment, who is in charge after each, and the locks that decide it.

mod axis;
mod cover;
mod dimension;
mod group;
mod json;
mod merge;
mod moment;
mod options;
mod outcome;
mod page;
mod paint;
mod pick;
mod picture;
mod run;
mod says;
mod states;
mod told;
mod tree;
mod vary;
mod way;

pub use options::Options;

use crate::output;
use crate::refused::explained;
use crate::stop::{DONE, Ended, REFUSED, Stop};
use dimension::Space;
use group::{Group, Grouping};
use moment::Moment;
use ronthuyal::Refusal;
use ronthuyal::words::Labels;
use run::Ran;
use std::io::{self, BufWriter, Write};
use std::ops::Range;

/// So many states are run at once, and so many in one shard or joined from shards.
const STATES: u64 = 1 << 20;
const STATES_OF_SHARDS: u64 = 1 << 28;

/// What was run.
pub struct Explored {
    moment: Moment,
    space: Space,
    stay: Vec<String>,
    /// Which states, and what they come to.
    states: Range<u64>,
    ran: Ran,
    /// How many at random, and their seed.
    sampled: Option<(u64, u64)>,
}

/// What is said of all states.
pub struct Whole {
    main: Grouping,
    /// By who is in charge alone, where the groups say more than that.
    winners: Option<Grouping>,
    /// By how late a context is in charge.
    late: Option<Grouping>,
}

impl Whole {
    /// Whether some condition speaks of a context that is held.
    fn speaks_of_held(&self, space: &Space) -> bool {
        let groupings = [Some(&self.main), self.winners.as_ref(), self.late.as_ref()];
        groupings
            .into_iter()
            .flatten()
            .any(|grouping| says::speaks_of_held(space, grouping))
    }
}

/// What is said of what was run.
pub enum Answer {
    /// Of some states nothing is known.
    Part,
    Sampled(Vec<Group>),
    Whole(Box<Whole>),
}

impl Answer {
    fn of(explored: &Explored) -> Result<Self, Stop> {
        let Explored { moment, space, ran, .. } = explored;
        let (of, count) = group::by_key(&ran.outcomes, |outcome| says::says(moment, outcome));
        if explored.sampled.is_some() {
            return Ok(Self::Sampled(group::counted(ran, &of, count)));
        }
        if explored.states != (0..space.total) {
            return Ok(Self::Part);
        }
        let grouped = |of| group::grouped(space, ran, of).map_err(Stop::not_understood);
        let (by_winner, winners) = group::by_key(&ran.outcomes, |outcome| says::winner(moment, outcome));
        let coarser = moment.asked.is_none() && winners < count;
        let late = moment.late.filter(|_| !moment.steps.is_empty());
        let late = late.map(|_| group::by_key(&ran.outcomes, |outcome| outcome.after));
        Ok(Self::Whole(Box::new(Whole {
            main: grouped((of, count))?,
            winners: coarser.then(|| grouped((by_winner, winners))).transpose()?,
            late: late.map(grouped).transpose()?,
        })))
    }
    fn axes(&self) -> &[axis::Axis] {
        match self {
            Self::Whole(whole) => &whole.main.axes,
            _ => &[],
        }
    }
    fn groups(&self) -> &[Group] {
        match self {
            Self::Part => &[],
            Self::Sampled(groups) => groups,
            Self::Whole(whole) => &whole.main.groups,
        }
    }
}

pub fn explore(options: &Options) -> Ended {
    let explored = match &options.file {
        Some(file) => {
            let mut moment = Moment::load(file, &options.call, options.calls.unwrap_or(0))?;
            moment.ask(options.asked.as_deref())?;
            moment.hold = options.hold;
            let varied = vary::varied(&mut moment, &options.vary, &options.fix)?;
            if let Some(state) = options.pick {
                return pick::pick(&moment, &varied.space, state, options.output.as_deref());
            }
            picture::named(&varied.space, &options.grid).map_err(Stop::not_understood)?;
            ran(moment, varied, options)?
        }
        None => merge::merged(&options.merge)?,
    };
    if let Some(state) = options.pick {
        return pick::pick(&explored.moment, &explored.space, state, options.output.as_deref());
    }
    if let Some(says) = always_refused(&explored)? {
        println!("{says}");
        return Ok(REFUSED);
    }
    let answer = Answer::of(&explored)?;
    let mut out = BufWriter::new(io::stdout().lock());
    match options.json {
        true => output::line(&mut out, &json::written(&explored, &answer))?,
        false => told::print(&mut out, &explored, &answer)?,
    }
    out.flush()?;
    pictures(&explored, &answer, options)?;
    Ok(DONE)
}

/// Picture and page.
fn pictures(explored: &Explored, answer: &Answer, options: &Options) -> Result<(), Stop> {
    if options.svg.is_none() && options.html.is_none() {
        return Ok(());
    }
    let Answer::Whole(whole) = answer else {
        let says = "--svg, --html: a part and a sample have no picture; all states have";
        return Err(Stop::not_understood(says));
    };
    let drawn = whole.winners.as_ref().unwrap_or(&whole.main);
    let named = picture::named(&explored.space, &options.grid).map_err(Stop::not_understood)?;
    let grid = named.or_else(|| picture::first_two(drawn));
    let looks = paint::Looks::of(explored, whole);
    if let Some(path) = &options.svg {
        output::file(path, picture::picture(explored, drawn, &looks.drawn, grid).as_bytes())?;
    }
    if let Some(path) = &options.html {
        let page = page::page(explored, whole, &looks, grid).map_err(Stop::not_understood)?;
        output::file(path, page.as_bytes())?;
    }
    Ok(())
}

/// Runs the states that are asked for.
fn ran(moment: Moment, varied: vary::Varied, options: &Options) -> Result<Explored, Stop> {
    let vary::Varied { space, stay } = varied;
    let states = match &options.shard {
        Some(text) => merge::shard(text, space.total).map_err(Stop::not_understood)?,
        None => 0..space.total,
    };
    let (ran, sampled) = match options.sample {
        Some(count) => {
            if count == 0 || count > STATES_OF_SHARDS {
                let says = format!("--sample {count}: 1 to {STATES_OF_SHARDS} is allowed");
                return Err(Stop::not_understood(says));
            }
            (
                run::sample(&moment, &space, count, options.seed),
                Some((count, options.seed)),
            )
        }
        None => {
            fits(&moment, &space, &states, options.shard.is_some())?;
            (run::run(&moment, &space, states.clone()), None)
        }
    };
    Ok(Explored {
        moment,
        space,
        stay,
        states,
        ran,
        sampled,
    })
}

/// Too many states are not run; what makes them fewer is said.
fn fits(moment: &Moment, space: &Space, states: &Range<u64>, shard: bool) -> Result<(), Stop> {
    let count = states.end - states.start;
    let most = if shard { STATES_OF_SHARDS } else { STATES };
    if count <= most {
        return Ok(());
    }
    let mut lines = vec![format!(
        "{}: {} of {}; up to {most} are run at once",
        moment.file,
        says::states(count),
        says::many(space.dimensions.len() as u64, "lock")
    )];
    let names: Vec<&str> = space
        .dimensions
        .iter()
        .map(|dimension| dimension.name.as_str())
        .collect();
    lines.push(format!("  --fix NAMES keeps locks as they are: {}", names.join(", ")));
    lines.push(format!(
        "  --sample {STATES} runs that many at random; the answer is incomplete"
    ));
    if !shard && space.total <= STATES_OF_SHARDS {
        let parts = space.total.div_ceil(STATES);
        lines.push(format!(
            "  --shard 1/{parts} --json to {parts}/{parts} runs parts, and --merge joins them"
        ));
    }
    Err(Stop {
        code: crate::stop::NOT_UNDERSTOOD,
        lines,
    })
}

/// Where every state is refused by one number there is nothing to tell but why.
fn always_refused(explored: &Explored) -> Result<Option<String>, Stop> {
    let Explored { moment, space, ran, .. } = explored;
    let first = ran.outcomes.first().map_or(0, |outcome| outcome.refusal);
    let Some(refusal) = Refusal::new(first).filter(|_| ran.outcomes.iter().all(|outcome| outcome.refusal == first))
    else {
        return Ok(None);
    };
    let mut words = moment.words.clone();
    space.store(explored.states.start, &mut words);
    let labels = Labels {
        names: &moment.names,
        lines: &[],
    };
    let why = explained(&words, &moment.call, refusal, &labels);
    let why = why.map_err(|disagreement| Stop::not_understood(disagreement.0))?;
    let why = why.map_or_else(String::new, |why| format!(": {why}"));
    let told = crate::calls::told(&moment.call, &moment.names);
    Ok(Some(format!(
        "{}: {told} is refused with {first}, whatever the locks{why}",
        moment.file
    )))
}
