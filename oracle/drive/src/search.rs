//! The start search of the Rust: as a whole, and one evaluation placed at will.

use crate::record::runs;
use crate::scene::{pieces, Sound};
use rustfft::num_complex::Complex;
use slowrx::modespec::access::spec;
use slowrx::sync_start::access::{self as sync_start, Detector, Placed, Start};

/// Stands for a start that was not found.
pub const NOWHERE: u64 = u64::MAX;

/// Columns of a fold.
pub const COLUMNS: usize = 700;

/// Let the next transform make `has_sync_at` answer this.
pub fn inject(flag: bool) {
    let mut spectrum = [Complex::default(); 28];
    spectrum[27].re = if flag { 1.0 } else { 0.0 };
    rustfft::inject(&spectrum);
}

/// One evaluation.
#[derive(Clone, Copy)]
pub struct Evaluation {
    /// Its quality.
    pub quality: f32,
    /// The streak after it.
    pub streak: u32,
    /// The start, if it found one.
    pub start: Option<Start>,
}

/// The detector, anchored at 0 and fed 4 samples a time.
pub struct Search {
    detector: Detector,
    window: usize,
    taken: usize,
    /// Evaluations so far.
    pub evaluations: Vec<Evaluation>,
}

impl Search {
    /// A search that knows the samples 0 to 3.
    #[must_use]
    pub fn new(mode: usize, first: &[f32]) -> Self {
        let mut detector = Detector::new(spec(mode));
        assert_eq!(first.len(), 4);
        detector.process(first, 4);
        Self {
            detector,
            window: sync_start::window_probes(spec(mode)),
            taken: 0,
            evaluations: Vec::new(),
        }
    }

    /// One flag and its four samples. Gives the start when it is found.
    pub fn step(&mut self, flag: bool, samples: &[f32]) -> Option<Start> {
        assert_eq!(samples.len(), 4);
        inject(flag);
        self.detector.process(samples, 4 * self.taken as u64 + 8);
        self.taken += 1;
        let due = self.taken >= self.window && (self.taken - self.window).is_multiple_of(64);
        let made = self.detector.has_just_evaluated() && self.taken >= self.window;
        assert_eq!(due, made, "evaluations are due at w + 64j flags");
        if made {
            self.evaluations.push(Evaluation {
                quality: self.detector.last_quality(),
                streak: self.detector.streak(),
                start: self.detector.start(),
            });
        }
        self.detector.start()
    }
}

/// The flags before the window that the detector still holds.
#[must_use]
pub fn kept(j: usize) -> usize {
    (64 * j).min(65)
}

/// Flags taken at evaluation `j`.
#[must_use]
pub fn taken_at(mode: usize, j: usize) -> usize {
    sync_start::window_probes(spec(mode)) + 64 * j
}

/// The detector's state at evaluation `j`, with `kept` flags before it.
#[must_use]
pub fn placed(mode: usize, sound: &Sound, j: usize, kept: usize, streak: u32) -> Placed {
    let taken = taken_at(mode, j);
    let flags = &sound.flags[..taken];
    Placed::new(spec(mode), flags, sound.known(taken), j, kept, streak)
}

/// An evaluation made at once, without the flags before it.
#[must_use]
pub fn evaluate(mode: usize, sound: &Sound, j: usize, streak: u32) -> Evaluation {
    let mut placed = placed(mode, sound, j, kept(j), streak);
    let start = placed.evaluate();
    Evaluation {
        quality: placed.last_quality(),
        streak: placed.streak(),
        start,
    }
}

/// The fold of evaluation `j`.
#[must_use]
pub fn fold(mode: usize, sound: &Sound, j: usize) -> Vec<u32> {
    placed(mode, sound, j, kept(j), 0).counts()
}

/// Start, streak, and quality with the start's windows, as a record has them.
#[must_use]
pub fn answer(evaluation: Evaluation) -> [u64; 3] {
    let found = evaluation.start;
    let position = found.map_or(NOWHERE, |start| start.position);
    let windows = found.map_or(0, |start| start.windows as u64);
    let quality = u64::from(evaluation.quality.to_bits());
    let streak = u64::from(evaluation.streak);
    [position, streak, quality | windows << 32]
}

/// Number of runs and the runs.
#[must_use]
pub fn flag_words(flags: &[bool]) -> Vec<u8> {
    let lengths = runs(flags);
    let mut words = vec![lengths.len() as u32];
    words.extend(lengths);
    crate::record::words(&words)
}

/// Samples that are not zero: first number, how many, the samples.
#[must_use]
pub fn piece_words(samples: &[f32]) -> Vec<u8> {
    let mut words = Vec::new();
    for (from, piece) in pieces(samples) {
        words.extend([from as u32, piece.len() as u32]);
        words.extend(piece.iter().map(|sample| sample.to_bits()));
    }
    crate::record::words(&words)
}
