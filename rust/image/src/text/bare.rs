//! An image as it would be written with nothing told but who is there.

use super::{Context, Cpu, ENTRY_WORDS, Entry, Listed, Source, Timer};
use crate::names::Names;
use crate::places::{block, context};
use crate::view::View;
use alloc::format;
use alloc::string::{String, ToString};
use alloc::vec::Vec;

/// Contexts, CPUs with their seats, and the lists, nothing else told.
pub fn bare(view: View, names: &Names) -> Source {
    let contexts = (0..view.contexts()).map(|_| Context {
        line: 0,
        told: [None; context::WORDS],
    });
    let mut source = Source {
        names: unique(names, view.contexts()),
        contexts: contexts.collect(),
        ..Source::default()
    };
    for cpu in 0..view.cpus() {
        let there = view.present(cpu);
        source.cpus.push(there.then(|| seats(view, cpu)));
        if there {
            lists(view, cpu, &mut source);
        }
    }
    source
}

fn lists(view: View, cpu: usize, source: &mut Source) {
    source.queue.extend(view.queue(cpu).map(|context| Entry {
        line: 0,
        cpu,
        context,
        told: [None; ENTRY_WORDS.len()],
    }));
    source.timers.extend(view.timers(cpu).map(|(wake, context)| {
        let own = (context < view.contexts() as u64).then(|| view.record(context as usize, context::WAKE));
        Timer {
            line: 0,
            cpu,
            context,
            wake: (own != Some(wake) || wake == 0).then_some(wake),
        }
    }));
    let lists = [
        (false, block::LOCAL_COUNT, block::LOCAL_WAKEUP_LIST),
        (true, block::IPI_COUNT, block::IPI_CONTEXT_WAKEUP_LIST),
    ];
    for (interrupt, count, list) in lists {
        let slots = 0..view.used(cpu, count);
        source.lists.extend(slots.map(|slot| Listed {
            line: 0,
            cpu,
            interrupt,
            context: view.block(cpu, list + slot),
        }));
    }
}

fn seats(view: View, cpu: usize) -> Cpu {
    let mut written = Cpu::new(0);
    let seat = |word| view.block(cpu, word);
    let (idle, sched, current) = (
        seat(block::IDLE_CTXT),
        seat(block::SCHED_CTXT),
        seat(block::CURRENT_CTXT),
    );
    written.told[block::IDLE_CTXT] = Some((idle, 0));
    if sched != idle || current != idle {
        written.told[block::SCHED_CTXT] = Some((sched, 0));
    }
    if current != sched {
        written.told[block::CURRENT_CTXT] = Some((current, 0));
    }
    written
}

/// As many names as contexts, all different.
fn unique(names: &Names, contexts: usize) -> Names {
    let mut all: Vec<String> = Vec::new();
    for number in 0..contexts {
        let name = names
            .get(number as u64)
            .map_or_else(|| format!("c{number}"), str::to_string);
        match all.contains(&name) {
            true => all.push(format!("{name}_{number}")),
            false => all.push(name),
        }
    }
    Names::new(all)
}
