//! Who was taken from other CPUs, and why nobody was.

use super::Way;
use ronthuyal::words::locks::SPACE_WRITTEN;
use ronthuyal::words::{block, context};

impl Way<'_> {
    /// Whom other CPUs gave, or why nobody.
    pub fn thefts(&mut self) {
        let counter = self.before.block(self.here, block::STEAL_COUNTER);
        let idle = self.holder == self.before.block(self.here, block::IDLE_CTXT);
        let nobody = matches!(self.outcome.rule, 8 | 9);
        if !(counter.is_multiple_of(16) || (idle && nobody && counter.is_multiple_of(2))) {
            return;
        }
        let cpus = self.before.cpus();
        for cpu in (1..cpus)
            .map(|step| (self.here + step) % cpus)
            .filter(|cpu| self.before.present(*cpu))
        {
            let taken: Vec<String> = self
                .outcome
                .stolen
                .iter()
                .filter(|(_, from)| *from == cpu)
                .map(|(owner, _)| self.name(*owner))
                .collect();
            if !taken.is_empty() {
                let are = if taken.len() == 1 { "is" } else { "are" };
                self.told.push(format!(
                    "{} {are} taken from the queue of CPU {cpu}.",
                    taken.join(" and ")
                ));
                return;
            }
            let owners: Vec<u64> = self.before.queue(cpu).collect();
            if owners.is_empty() {
                continue;
            }
            if self.before.block(cpu, block::QUEUE_LOCKED) == 1 {
                self.told
                    .push(format!("Nobody is taken from CPU {cpu}: its queue is locked."));
                continue;
            }
            let why = |number: &u64| {
                let written = self.word(*number, context::ADDR_SPACE) == SPACE_WRITTEN;
                let space = written.then_some("another CPU is writing its address space");
                let why = self.locked(*number).or(space)?;
                Some(format!(
                    "{} is queued on CPU {cpu}: {why}, and it is not taken.",
                    self.name(*number)
                ))
            };
            let kept: Vec<String> = owners.iter().filter_map(why).collect();
            if kept.len() < owners.len() {
                let why = "its queue is too short, or those that are free may not come";
                self.told.push(format!("Nobody is taken from CPU {cpu}: {why}."));
            }
            self.told.extend(kept);
        }
    }
}
