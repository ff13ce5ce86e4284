//! Where things stand: widths, heights, and time from left to right.

use super::Recorder;

pub const WIDTH: f64 = 1200.0;
pub const LEFT: f64 = 150.0;
pub const RIGHT: f64 = 1176.0;
pub const TOP: f64 = 64.0;
/// A lane: its marks, its bar, and a gap.
pub const MARKS: f64 = 16.0;
pub const BAR: f64 = 26.0;
pub const GAP: f64 = 8.0;
pub const LANE: f64 = MARKS + BAR + GAP;
pub const HEAD: f64 = 24.0;
/// A letter is at most so wide.
pub const LETTER: f64 = 7.4;
pub const MARK: f64 = 12.0;
/// Bars that are narrower are drawn together.
pub const NARROW: f64 = 1.5;

pub struct Scale {
    pub from: u64,
    pub to: u64,
}

impl Scale {
    /// Some room before the first call and behind the last.
    pub fn new(recorder: &Recorder) -> Self {
        let first = recorder.first.unwrap_or(recorder.now);
        let span = (recorder.now - first).max(1_000_000);
        let margin = span / 16;
        Self {
            from: first.saturating_sub(margin),
            to: recorder.now.saturating_add(margin),
        }
    }
    pub fn x(&self, time: u64) -> f64 {
        let time = time.clamp(self.from, self.to);
        let part = (time - self.from) as f64 / (self.to - self.from).max(1) as f64;
        ((LEFT + part * (RIGHT - LEFT)) * 100.0).round() / 100.0
    }
}

pub fn escaped(text: &str) -> String {
    text.replace('&', "&amp;")
        .replace('<', "&lt;")
        .replace('>', "&gt;")
        .replace('"', "&quot;")
}
