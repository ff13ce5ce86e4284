//! The picture of a replay: a lane for each CPU with who is in charge, and one for each chosen context.

mod bars;
mod draw;
mod frame;
mod lane;
mod marks;
mod scale;

pub use scale::{LETTER, escaped};

use lane::{Lane, Mark, Shown};

use crate::table::Row;
use ronthuyal::words::{Names, View, block, context};

/// So many contexts have a lane if none are chosen.
const LANES: usize = 16;
/// So many changes are drawn; the picture then says where it ends.
const CHANGES: usize = 20_000;

/// Collects what the picture shows.
pub struct Recorder {
    chosen: Option<Vec<String>>,
    names: Names,
    length: usize,
    cpus: Vec<Lane>,
    contexts: Vec<(u64, Lane)>,
    statuses: Vec<u64>,
    first: Option<u64>,
    now: u64,
    changes: usize,
    calls: u64,
    cut: bool,
    /// How many contexts have no lane, where none were chosen.
    left_out: usize,
}

impl Recorder {
    pub fn new(chosen: Option<Vec<String>>) -> Self {
        Self {
            chosen,
            names: Names::default(),
            length: 0,
            cpus: Vec::new(),
            contexts: Vec::new(),
            statuses: Vec::new(),
            first: None,
            now: 0,
            changes: 0,
            calls: 0,
            cut: false,
            left_out: 0,
        }
    }

    pub fn begun(&self) -> bool {
        self.length > 0
    }

    /// The lanes, as the image is before the first call.
    pub fn begin(&mut self, words: &[u64], names: &Names) -> Result<(), String> {
        let view = View::new(words).ok_or("--svg: an image whose sizes and length do not agree has no picture")?;
        self.names = names.clone();
        self.length = words.len();
        self.cpus = (0..view.cpus()).map(|cpu| Lane::new(format!("CPU {cpu}"))).collect();
        for number in self.wanted(view)? {
            self.contexts.push((number, Lane::new(names.of(number))));
        }
        if self.chosen.is_none() {
            self.left_out = others(view).count().saturating_sub(LANES);
        }
        self.statuses = statuses(view);
        self.sample(view);
        Ok(())
    }

    fn wanted(&self, view: View) -> Result<Vec<u64>, String> {
        if let Some(chosen) = &self.chosen {
            let find = |name: &String| self.names.find(name, view.contexts()).map(|at| at as u64);
            return chosen
                .iter()
                .map(find)
                .collect::<Result<_, _>>()
                .map_err(|says| format!("--lanes: {says}"));
        }
        Ok(others(view).take(LANES).collect())
    }

    /// What every lane shows now.
    fn sample(&mut self, view: View) {
        let time = self.now;
        for (cpu, lane) in self.cpus.iter_mut().enumerate() {
            let charged = view.block(cpu, block::SCHED_CTXT);
            let shown = match view.present(cpu) {
                false => Shown::Absent,
                true if charged == view.block(cpu, block::IDLE_CTXT) => Shown::Idle,
                true => Shown::InCharge(charged),
            };
            self.changes += usize::from(lane.show(time, shown));
        }
        for (number, lane) in &mut self.contexts {
            let shown = state(view, *number);
            self.changes += usize::from(lane.show(time, shown));
        }
    }

    /// Takes what a call did. Time never goes back in a picture.
    pub fn called(&mut self, row: &Row) -> Result<(), String> {
        if !self.begun() {
            self.begin(row.words, row.names)?;
        }
        if row.words.len() != self.length {
            return Err("--svg: a picture is of one image, and the trace begins another of other sizes".to_string());
        }
        self.calls += 1;
        self.now = self.now.max(row.call.time().unwrap_or(0));
        if self.first.is_none() {
            self.first = Some(self.now);
            // What was before is drawn up to here.
            let lanes = self
                .cpus
                .iter_mut()
                .chain(self.contexts.iter_mut().map(|(_, lane)| lane));
            lanes.for_each(|lane| lane.parts.iter_mut().for_each(|part| part.0 = 0));
        }
        self.cut |= self.changes > CHANGES;
        let Some(view) = View::new(row.words).filter(|_| !self.cut) else {
            return Ok(());
        };
        self.sample(view);
        self.mark(row, view);
        Ok(())
    }

    fn mark(&mut self, row: &Row, view: View) {
        let time = self.now;
        let cpu = row.call.cpu() as usize;
        let operation = crate::calls::what(row.call, row.names);
        let mut here = Vec::new();
        match row.answer {
            Err(refusal) => here.push((
                Mark::Refused,
                format!("{operation} is refused with {}", refusal.number()),
            )),
            Ok(done) if done.interrupt => here.push((Mark::Interrupt, format!("{operation} sends an interrupt"))),
            Ok(_) => {}
        }
        for (owner, from) in &row.happened.stolen {
            let says = format!("{} is taken from CPU {from}", row.names.of(*owner));
            self.on_context(*owner, time, Mark::Theft, says.clone());
            here.push((Mark::Theft, says));
        }
        let now = statuses(view);
        let before = std::mem::take(&mut self.statuses);
        for (number, changed) in before.into_iter().zip(now.iter().copied()).enumerate() {
            if changed == (context::BLOCKED, context::RUNNABLE) {
                let says = format!("{} is woken by {operation} on CPU {cpu}", row.names.of(number as u64));
                self.on_context(number as u64, time, Mark::WakeUp, says);
            }
        }
        self.statuses = now;
        if let Some(lane) = self.cpus.get_mut(cpu) {
            self.changes += here.len();
            lane.marks
                .extend(here.into_iter().map(|(mark, says)| (time, mark, says)));
        }
    }

    fn on_context(&mut self, number: u64, time: u64, mark: Mark, says: String) {
        if let Some((_, lane)) = self.contexts.iter_mut().find(|(other, _)| *other == number) {
            lane.marks.push((time, mark, says));
            self.changes += 1;
        }
    }

    /// The picture as SVG.
    pub fn picture(&self, title: &str) -> String {
        draw::picture(self, title)
    }
}

/// The contexts that are nobody's idle one.
fn others(view: View<'_>) -> impl Iterator<Item = u64> {
    let idle = move |number: u64| {
        view.present_cpus()
            .any(|cpu| view.block(cpu, block::IDLE_CTXT) == number)
    };
    (0..view.contexts() as u64).filter(move |number| !idle(*number))
}

fn statuses(view: View) -> Vec<u64> {
    (0..view.contexts())
        .map(|number| view.record(number, context::STATUS))
        .collect()
}

fn state(view: View, number: u64) -> Shown {
    let current = view
        .present_cpus()
        .find(|cpu| view.block(*cpu, block::CURRENT_CTXT) == number);
    let status = view.record(number as usize, context::STATUS);
    match (current, status) {
        (Some(cpu), _) => Shown::Running(cpu),
        _ if view.gone(number as usize) => Shown::Out,
        (None, context::RUNNABLE) => Shown::Waiting,
        (None, context::BLOCKED) => Shown::Blocked,
        _ => Shown::Out,
    }
}
