//! Lists of flags as pictures give them: trains of pulses, noise, gaps.

use crate::rng::Rng;
use slowrx::modespec::ModeSpec;

/// A train of pulses, one a line.
#[derive(Clone, Copy)]
pub struct Train {
    /// Flags in one second: a quarter of the sample rate.
    pub flags_per_second: f64,
    /// The sender's clock beside ours: lines are longer by this part.
    pub slower: f64,
    /// Seconds from the list's start to the first pulse.
    pub first: f64,
    /// Number of pulses.
    pub lines: usize,
}

impl Train {
    /// A train for one picture of this mode, with its clock right.
    #[must_use]
    pub fn of(spec: ModeSpec, rate: f64) -> Self {
        Self {
            flags_per_second: rate / 4.0,
            slower: 0.0,
            first: 0.0,
            lines: spec.image_lines as usize,
        }
    }

    /// First flag of line `line` and the flag after its last one.
    #[must_use]
    pub fn pulse(&self, spec: ModeSpec, line: usize) -> (usize, usize) {
        let start = self.first + line as f64 * spec.line_seconds * (1.0 + self.slower);
        let end = start + spec.sync_seconds;
        let flag = |t: f64| (t * self.flags_per_second).max(0.0) as usize;
        (flag(start), flag(end))
    }

    /// Draw the train into `flags`; `missing` of a thousand lines are left out.
    pub fn draw(&self, spec: ModeSpec, flags: &mut [bool], missing: u64, rng: &mut Rng) {
        for line in 0..self.lines {
            let (from, to) = self.pulse(spec, line);
            if !rng.permille(missing) {
                set(flags, from, to);
            }
        }
    }
}

/// Set the flags from `from` up to `to`, as far as there are any.
pub fn set(flags: &mut [bool], from: usize, to: usize) {
    let end = to.min(flags.len());
    if from < end {
        flags[from..end].fill(true);
    }
}

/// Turn over `number` short runs anywhere.
pub fn bursts(flags: &mut [bool], number: usize, longest: usize, rng: &mut Rng) {
    for _ in 0..number {
        let from = rng.index(flags.len());
        let to = (from + 1 + rng.index(longest)).min(flags.len());
        for flag in &mut flags[from..to] {
            *flag = !*flag;
        }
    }
}
