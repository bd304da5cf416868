//! Flags with the samples that come beside them, as a receiver hears them.

use crate::modes::MODES;
use crate::rng::Rng;
use crate::train::{set, Train};
use slowrx::modespec::access::spec;
use slowrx::modespec::ModeSpec;
use std::f64::consts::PI;
use std::ops::Range;

/// Samples in one second.
pub const RATE: f64 = 11_025.0;

/// The two modes whose samples are looked at.
#[must_use]
pub fn is_robot(mode: usize) -> bool {
    mode == 3 || mode == 4
}

/// A list of flags and 4 samples more than 4 for each.
#[derive(Clone)]
pub struct Sound {
    /// The flags.
    pub flags: Vec<bool>,
    /// The samples, number 0 first.
    pub samples: Vec<f32>,
}

impl Sound {
    /// Silence of this many flags.
    #[must_use]
    pub fn silent(flags: usize) -> Self {
        Self {
            flags: vec![false; flags],
            samples: vec![0.0; 4 * flags + 4],
        }
    }

    /// Adds silence up to this many flags.
    pub fn silence(&mut self, flags: usize) {
        self.flags.resize(flags, false);
        self.samples.resize(4 * flags + 4, 0.0);
    }

    /// The samples known when this many flags are taken.
    #[must_use]
    pub fn known(&self, taken: usize) -> &[f32] {
        &self.samples[..4 * (taken + 1)]
    }

    /// The tone that tells a Robot line's parity, a little longer than it is
    /// looked at. `at` is the line's pulse in seconds.
    pub fn parity_tone(&mut self, spec: ModeSpec, at: f64, odd: bool, strength: f64) {
        let separator = spec.sync_seconds
            + spec.porch_seconds
            + 2.0 * f64::from(spec.line_pixels) * spec.pixel_seconds;
        let middle = ((at + separator) * RATE).max(0.0) as usize;
        let hz = if odd { 2300.0 } else { 1500.0 };
        for i in middle.saturating_sub(12)..(middle + 61).min(self.samples.len()) {
            let tone = strength * (2.0 * PI * hz * i as f64 / RATE).sin();
            self.samples[i] = tone as f32;
        }
    }

    /// The stretches of samples that are not zero: first number and samples.
    #[must_use]
    pub fn pieces(&self) -> Vec<(usize, &[f32])> {
        pieces(&self.samples)
    }
}

/// The stretches of a list that are not zero. Gaps of up to two zeros are
/// not worth a new stretch.
#[must_use]
pub fn pieces(samples: &[f32]) -> Vec<(usize, &[f32])> {
    let mut list = Vec::new();
    let mut open: Option<(usize, usize)> = None;
    for (i, sample) in samples.iter().enumerate() {
        if sample.to_bits() == 0 {
            continue;
        }
        open = match open {
            Some((from, last)) if i - last <= 3 => Some((from, i)),
            Some((from, last)) => {
                list.push((from, &samples[from..=last]));
                Some((i, i))
            }
            None => Some((i, i)),
        };
    }
    if let Some((from, last)) = open {
        list.push((from, &samples[from..=last]));
    }
    list
}

/// How a picture comes in.
#[derive(Clone, Debug)]
pub struct Scene {
    /// The mode.
    pub mode: usize,
    /// Flags before the first pulse.
    pub lead_in: usize,
    /// Flags in all.
    pub flags: usize,
    /// The sender's clock beside ours.
    pub slower: f64,
    /// Flags by which each pulse is longer than the mode's, so that several
    /// windows of a fold have the largest sum.
    pub longer: usize,
    /// Of a thousand lines, how many have no pulse.
    pub missing: u64,
    /// Lines at the start whose pulse is only the beginning of one.
    pub weak: usize,
    /// Lines at the start whose pulse has every fourth flag missing.
    pub broken: usize,
    /// Line after which the pulses stay away, and how many.
    pub gap: (usize, usize),
    /// Short runs of wrong flags.
    pub bursts: usize,
    /// Whether the first line is an odd one (Robot).
    pub odd_first: bool,
    /// Strength of the parity tones.
    pub tones: f64,
    /// The lines that have such a tone.
    pub tone_lines: Range<usize>,
}

impl Scene {
    /// A clean picture.
    #[must_use]
    pub fn clean(mode: usize, lead_in: usize, flags: usize) -> Self {
        assert!(mode < MODES);
        Self {
            mode,
            lead_in,
            flags,
            slower: 0.0,
            longer: 0,
            missing: 0,
            weak: 0,
            broken: 0,
            gap: (0, 0),
            bursts: 0,
            odd_first: false,
            tones: 0.5,
            tone_lines: 0..usize::MAX,
        }
    }

    /// The train of its pulses.
    #[must_use]
    pub fn train(&self) -> Train {
        let mut train = Train::of(spec(self.mode), RATE);
        train.first = (self.lead_in as f64 + 0.5) * 4.0 / RATE;
        train.slower = self.slower;
        train
    }

    /// Flags and samples.
    pub fn sound(&self, rng: &mut Rng) -> Sound {
        let row = spec(self.mode);
        let train = self.train();
        let mut sound = Sound::silent(self.flags);
        for line in 0..train.lines {
            let (from, to) = train.pulse(row, line);
            let to = to + self.longer;
            if from >= self.flags {
                break;
            }
            let gap = line >= self.gap.0 && line - self.gap.0 < self.gap.1;
            if gap || rng.permille(self.missing) {
                continue;
            }
            if line < self.weak {
                set(&mut sound.flags, from, from + (to - from) / (2 + line % 3));
            } else {
                set(&mut sound.flags, from, to);
            }
            if line < self.broken {
                for flag in (from..to.min(self.flags)).step_by(4) {
                    sound.flags[flag] = false;
                }
            }
            if is_robot(self.mode) && self.tones > 0.0 && self.tone_lines.contains(&line) {
                let at = from as f64 * 4.0 / RATE;
                let odd = (line % 2 == 1) != self.odd_first;
                sound.parity_tone(row, at, odd, self.tones * (0.5 + 0.5 * rng.unit()));
            }
        }
        crate::train::bursts(&mut sound.flags, self.bursts, 6, rng);
        sound
    }
}
