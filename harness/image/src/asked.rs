//! Ask first, then commit (document 02, No. 9): an own reading of the ticket, off a switch.

use crate::{Answer, Call, View, block as b};

/// What asking gives, and what a commit is handed.
#[repr(C)]
#[derive(Clone, Copy, Debug, Default, PartialEq, Eq)]
pub struct Asked {
    pub refusal: u64,
    pub result: u64,
    pub in_charge: u64,
    pub current: u64,
    pub v: u64,
}

/// The switch that is asked for.
pub fn switch(cpu: u64, time: u64) -> Call {
    Call {
        operation: 2,
        cpu,
        time,
        context: 0,
    }
}

impl Asked {
    /// Of a switch on a CPU that gave this answer and left this image.
    pub fn of(answer: &Answer, after: &[u64], cpu: u64) -> Self {
        let refusal = answer.refusal;
        if refusal != 0 {
            return Self {
                refusal,
                ..Self::default()
            };
        }
        let word = |word| View(after).block(cpu as usize, word);
        Self {
            refusal,
            result: answer.result,
            in_charge: word(b::SCHED_CTXT),
            current: word(b::CURRENT_CTXT),
            v: word(b::V),
        }
    }

    pub fn words(self) -> [u64; 5] {
        [
            self.refusal,
            self.result,
            self.in_charge,
            self.current,
            self.v,
        ]
    }

    pub fn from_words(words: [u64; 5]) -> Self {
        let [refusal, result, in_charge, current, v] = words;
        Self {
            refusal,
            result,
            in_charge,
            current,
            v,
        }
    }

    /// What a commit of `self` answers and leaves, where the switch now gives `answer` and `after`
    /// and asking gives `now`: the switch's own number, then 13, else the switch.
    pub fn commit(
        self,
        image: &[u64],
        now: Self,
        answer: &Answer,
        after: &[u64],
    ) -> (Answer, Vec<u64>) {
        match answer.refusal {
            0 if self == now => (*answer, after.to_vec()),
            0 => (Answer::refused(13), image.to_vec()),
            own => (Answer::refused(own), image.to_vec()),
        }
    }
}
