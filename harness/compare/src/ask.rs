//! What is asked of table, kernel and port: an operation, the waking of a group, or the weight of a
//! CPU.

use crate::port;
use image::{Answer, Call, Group, OPERATIONS, TotalWeight, check, total_weight};
#[cfg(feature = "oracle")]
use {
    crate::generate::weight,
    image::{Fault, View},
    kernel::oracle,
};

pub trait Ask {
    /// The first of rows 1 to 8 that it meets, or 0.
    fn refusal(&self, image: &[u64]) -> u64;
    /// Runs the kernel's own functions; `image` becomes the image after.
    #[cfg(feature = "oracle")]
    fn kernel(&self, image: &mut [u64]) -> Result<Answer, Fault>;
    /// The call, if it may make a decision: only those run text that was changed.
    #[cfg(feature = "oracle")]
    fn decision(&self) -> Option<&Call>;
    /// The port's answer, or nothing where there is no port.
    fn port(&self, image: &mut [u64]) -> Option<Answer>;
    /// That of its plain engine, which makes operations alone.
    fn plain(&self, _image: &mut [u64]) -> Option<Answer> {
        None
    }
    fn text(&self) -> String;
}

impl Ask for Call {
    fn refusal(&self, image: &[u64]) -> u64 {
        check::refusal(image, self)
    }
    #[cfg(feature = "oracle")]
    fn kernel(&self, image: &mut [u64]) -> Result<Answer, Fault> {
        oracle::call(image, self)
    }
    #[cfg(feature = "oracle")]
    fn decision(&self) -> Option<&Call> {
        check::decides(self).then_some(self)
    }
    fn port(&self, image: &mut [u64]) -> Option<Answer> {
        port::call(image, self)
    }
    fn plain(&self, image: &mut [u64]) -> Option<Answer> {
        port::plain_call(image, self)
    }
    fn text(&self) -> String {
        let name = match self.operation {
            1..=7 => OPERATIONS[self.operation as usize - 1],
            _ => "none",
        };
        let Call {
            operation,
            cpu,
            time,
            context,
        } = self;
        format!("operation {operation} ({name}), cpu {cpu}, time {time}, context {context}")
    }
}

impl Ask for Group {
    fn refusal(&self, image: &[u64]) -> u64 {
        check::group_refusal(image, self)
    }
    #[cfg(feature = "oracle")]
    fn kernel(&self, image: &mut [u64]) -> Result<Answer, Fault> {
        oracle::unblock_group(image, self)
    }
    #[cfg(feature = "oracle")]
    fn decision(&self) -> Option<&Call> {
        None
    }
    fn port(&self, image: &mut [u64]) -> Option<Answer> {
        port::unblock_group(image, self)
    }
    fn text(&self) -> String {
        let Group { cpu, time, mask } = self;
        format!("unblock_group, cpu {cpu}, time {time}, mask {mask:#x}")
    }
}

impl Ask for TotalWeight {
    fn refusal(&self, image: &[u64]) -> u64 {
        total_weight::refusal(image, self)
    }
    /// The kernel has no function that adds up: the sum is an own one, by the kernel's table.
    #[cfg(feature = "oracle")]
    fn kernel(&self, image: &mut [u64]) -> Result<Answer, Fault> {
        Ok(Answer {
            result: total_weight::total(View(image), self.cpu as usize, weight),
            ..Answer::default()
        })
    }
    #[cfg(feature = "oracle")]
    fn decision(&self) -> Option<&Call> {
        None
    }
    fn port(&self, image: &mut [u64]) -> Option<Answer> {
        port::total_weight(image, self)
    }
    fn text(&self) -> String {
        format!("total_weight, cpu {}", self.cpu)
    }
}
