//! A line on standard error that says how far it is, on anything over a second.

use indicatif::{ProgressBar, ProgressStyle};
use std::sync::OnceLock;
use std::time::{Duration, Instant};

/// Nothing is shown in the first second, nor where standard error is no terminal.
pub struct Progress {
    begun: Instant,
    total: u64,
    template: &'static str,
    wanted: bool,
    bar: OnceLock<ProgressBar>,
}

impl Progress {
    fn new(total: u64, template: &'static str, wanted: bool) -> Self {
        Self {
            begun: Instant::now(),
            total,
            template,
            wanted,
            bar: OnceLock::new(),
        }
    }
    /// Of so many bytes to read.
    pub fn bytes(total: u64, wanted: bool) -> Self {
        Self::new(total, "{wide_bar} {percent}% of {total_bytes}, {eta} left", wanted)
    }
    /// Of so many files.
    pub fn files(total: usize) -> Self {
        Self::new(total as u64, "{wide_bar} {pos} of {len} files, {eta} left", true)
    }
    /// Of so many states.
    pub fn states(total: u64) -> Self {
        Self::new(total, "{wide_bar} {pos} of {len} states, {eta} left", true)
    }
    pub fn none() -> Self {
        Self::bytes(0, false)
    }
    fn bar(&self) -> Option<&ProgressBar> {
        if !self.wanted || self.begun.elapsed() < Duration::from_secs(1) {
            return None;
        }
        Some(self.bar.get_or_init(|| {
            let style = ProgressStyle::with_template(self.template);
            let style = style.unwrap_or_else(|_| ProgressStyle::default_bar());
            ProgressBar::new(self.total).with_style(style)
        }))
    }
    pub fn tell(&self, done: u64) {
        if let Some(bar) = self.bar() {
            bar.set_position(done);
        }
    }
}

impl Drop for Progress {
    fn drop(&mut self) {
        if let Some(bar) = self.bar.get() {
            bar.finish_and_clear();
        }
    }
}
