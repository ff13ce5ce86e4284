//! A call on an image: its operation, CPU and context.

use super::Stream;
use image::{Call, View, block as b, context as c};

impl Stream {
    pub fn call(&mut self, image: &[u64], time: u64) -> Call {
        let rng = &mut self.rng;
        let view = View(image);
        let mut cpu = rng.below(view.cpus());
        if !view.present(cpu) && !rng.once_in(12) {
            cpu = (0..view.cpus()).find(|cpu| view.present(*cpu)).unwrap();
        }
        let mut operation = match rng.below(24) {
            0..=4 => 1,
            5..=12 => 2,
            13..=17 => 3,
            18 | 19 => 4,
            20 | 21 => 5,
            22 => 6,
            _ => 7,
        };
        if self.choice.long_chains() && operation == 7 && !rng.once_in(4) {
            // Nothing ends a stop: a long chain would come to stand still.
            operation = 4;
        }
        let mut context = rng.below(view.contexts());
        if self.choice.long_chains() && operation == 4 {
            // Somebody who sleeps is woken before its timer is due.
            let sleeps = |x: &usize| view.context(*x, c::STATUS) == c::BLOCKED;
            let mut from = (context..view.contexts()).chain(0..context);
            context = from.find(sleeps).unwrap_or(context);
        }
        let current = view.block(cpu, b::CURRENT_CTXT);
        if operation == 3 && rng.once_in(6) {
            context = current as usize;
        } else if operation == 3 && current == view.block(cpu, b::IDLE_CTXT) && !rng.once_in(8) {
            // Refused, as the source asserts: a few are enough.
            operation = 2;
        }
        Call {
            operation,
            cpu: cpu as u64,
            time,
            context: context as u64,
        }
    }
}
