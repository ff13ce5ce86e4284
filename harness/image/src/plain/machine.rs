//! The machine that an image stands for, and the image that is built of it afresh.

use super::lists::{Entry, Key, Timer, by_rank};
use crate::{View, block as b, context as c, length, put_timers};

pub type Record = [u64; c::WORDS];

pub struct Cpu {
    pub word: [u64; b::SINGLE],
    pub queue: Vec<Entry>,
    pub timers: Vec<Timer>,
    pub local: Vec<u64>,
    pub ipi: Vec<u64>,
    pub remainder: u64,
}

pub struct Machine {
    pub records: Vec<Record>,
    pub cpus: Vec<Cpu>,
}

impl Machine {
    pub fn new(image: View) -> Self {
        let record = |context| std::array::from_fn(|word| image.context(context, word));
        Self {
            records: (0..image.contexts()).map(record).collect(),
            cpus: (0..image.cpus()).map(|cpu| Cpu::new(image, cpu)).collect(),
        }
    }
    /// Every entry and every timer in its place.
    pub fn placed(&self) -> Vec<u64> {
        let (cpus, contexts) = (self.cpus.len(), self.records.len());
        let mut image = vec![0; length(cpus, contexts)];
        image[..2].copy_from_slice(&[cpus as u64, contexts as u64]);
        for (context, record) in self.records.iter().enumerate() {
            let at = View(&image).context_at(context);
            image[at..at + c::WORDS].copy_from_slice(record);
        }
        for (number, cpu) in self.cpus.iter().enumerate() {
            let at = View(&image).block_at(number);
            cpu.place(&mut image[at..at + b::WORDS]);
        }
        image
    }
}

impl Cpu {
    fn new(image: View, cpu: usize) -> Self {
        let at = |word| image.block(cpu, word);
        let names = |count, list| (0..at(count) as usize).map(move |slot| at(list + slot));
        let entry = |slot| Entry {
            key: Key {
                vd: at(b::KEY_VD + slot),
                rem_slice: at(b::KEY_REM_SLICE + slot),
                id: at(b::KEY_CTXT_ID + slot),
            },
            vtime: at(b::ENTRY_VTIME + slot),
            weight: at(b::ENTRY_WEIGHT + slot),
            context: at(b::ENTRY_CONTEXT_REF + slot) as usize,
        };
        let timer = |(wake, context)| Timer {
            wake,
            context: context as usize,
        };
        Self {
            word: std::array::from_fn(at),
            queue: (0..at(b::QUEUE_COUNT) as usize).map(entry).collect(),
            timers: image.timers(cpu).map(timer).collect(),
            local: names(b::LOCAL_COUNT, b::LOCAL_WAKEUP_LIST).collect(),
            ipi: names(b::IPI_COUNT, b::IPI_CONTEXT_WAKEUP_LIST).collect(),
            remainder: at(b::REMAINDER),
        }
    }
    fn place(&self, words: &mut [u64]) {
        words[..b::SINGLE].copy_from_slice(&self.word);
        words[b::QUEUE_COUNT] = self.queue.len() as u64;
        for (slot, entry) in by_rank(&self.queue).iter().enumerate() {
            words[b::KEY_VD + slot] = entry.key.vd;
            words[b::KEY_REM_SLICE + slot] = entry.key.rem_slice;
            words[b::KEY_CTXT_ID + slot] = entry.key.id;
            words[b::ENTRY_VTIME + slot] = entry.vtime;
            words[b::ENTRY_WEIGHT + slot] = entry.weight;
            words[b::ENTRY_CONTEXT_REF + slot] = entry.context as u64;
        }
        let timers = by_rank(&self.timers);
        let pairs: Vec<(u64, u64)> = timers.iter().map(|t| (t.wake, t.context as u64)).collect();
        put_timers(words, 0, &pairs);
        words[b::LOCAL_COUNT] = self.local.len() as u64;
        words[b::LOCAL_WAKEUP_LIST..][..self.local.len()].copy_from_slice(&self.local);
        words[b::IPI_COUNT] = self.ipi.len() as u64;
        words[b::IPI_CONTEXT_WAKEUP_LIST..][..self.ipi.len()].copy_from_slice(&self.ipi);
        words[b::REMAINDER] = self.remainder;
    }
}
