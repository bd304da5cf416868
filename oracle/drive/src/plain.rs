//! The plain session of document 01 over what the Rust makes of a list: the
//! detector and `find_sync` are the Rust's; what a call refuses and when a
//! session ends is document 01's.

use crate::find_sync::NO_SLANT;
use crate::scene::{is_robot, Sound};
use crate::search::{taken_at, Evaluation, Search};
use slowrx::modespec::access::spec;
use slowrx::sync::access::{self as sync, Found, Scratch};
use slowrx::sync_start::access::Start;

/// Bytes of the first work memory.
pub const IMG: usize = 441_000;
/// Numbers of the second.
pub const VOTES: usize = 144_000;
/// Longest flag store and flag list.
pub const MOST_FLAGS: usize = 1 << 24;

/// A read: the end, and taken, evaluations, start, its windows, its quality, rate,
/// slant, skip and quality as numbers, 0 where the end lacks them.
pub type Reading = (u64, [u64; 9]);

/// What the Rust makes of a list of flags and samples.
pub struct Heard {
    /// The mode.
    pub mode: usize,
    /// What came in.
    pub sound: Sound,
    /// The evaluations up to the start.
    pub evaluations: Vec<Evaluation>,
    /// Flags taken when the start was found, and the start.
    pub start: Option<(usize, Start)>,
    /// What `find_sync` says, if the list holds the picture.
    pub report: Option<Found>,
}

impl Heard {
    /// Let the Rust hear it.
    #[must_use]
    pub fn new(mode: usize, sound: Sound) -> Self {
        let mut search = Search::new(mode, &sound.samples[..4]);
        let mut start = None;
        for (p, &flag) in sound.flags.iter().enumerate() {
            let found = search.step(flag, &sound.samples[4 * p + 4..4 * p + 8]);
            if let Some(found) = found {
                start = Some((p + 1, found));
                break;
            }
        }
        let picture = picture(mode);
        let report = start.and_then(|(_, start)| {
            let f = (start.position / 4) as usize;
            let flags = sound.flags.get(f..f + picture)?;
            let mut scratch = Scratch::default();
            Some(sync::find_sync(flags, 11_025.0, spec(mode), &mut scratch))
        });
        Self {
            mode,
            sound,
            evaluations: search.evaluations,
            start,
            report,
        }
    }

    /// f + P, where there is a start.
    #[must_use]
    pub fn full(&self) -> Option<usize> {
        let (_, start) = self.start?;
        Some((start.position / 4) as usize + picture(self.mode))
    }
}

/// P at 11,025 Hz.
#[must_use]
pub fn picture(mode: usize) -> usize {
    sync::image_probes(spec(mode), 11_025.0)
}

/// The shortest store: w + P.
#[must_use]
pub fn shortest(mode: usize) -> usize {
    taken_at(mode, 0) + picture(mode)
}

/// Where a session stands.
#[derive(Clone, Copy, Debug, PartialEq)]
pub enum Phase {
    /// No start yet.
    Searching,
    /// A start, and the picture's flags are coming.
    Collecting,
    /// Ended with a report.
    Reported,
    /// Ended without a start.
    Unfound,
    /// Ended with a start and too few flags.
    CutShort,
}

/// The plain session of document 01 over what was heard.
pub struct Session<'a> {
    /// What comes in.
    pub heard: &'a Heard,
    /// The anchor.
    pub anchor: u64,
    /// F.
    pub capacity: usize,
    /// Length of the sample store.
    pub samples: usize,
    /// Flags taken.
    pub taken: usize,
    /// Evaluations made.
    pub evaluations: usize,
    /// Where it stands.
    pub phase: Phase,
    /// w and f + P, which each step asks for.
    window: usize,
    full: Option<usize>,
}

impl<'a> Session<'a> {
    /// A session as open leaves it.
    #[must_use]
    pub fn new(heard: &'a Heard, anchor: u64, capacity: usize, samples: usize) -> Self {
        Self {
            heard,
            anchor,
            capacity,
            samples,
            taken: 0,
            evaluations: 0,
            phase: Phase::Searching,
            window: taken_at(heard.mode, 0),
            full: heard.full(),
        }
    }

    /// One flag with its four samples.
    pub fn step(&mut self) {
        self.taken += 1;
        let w = self.window;
        let due = self.taken >= w && (self.taken - w).is_multiple_of(64);
        if self.phase == Phase::Searching && due {
            self.evaluations += 1;
            let made = &self.heard.evaluations[self.evaluations - 1];
            if made.start.is_some() {
                self.phase = Phase::Collecting;
            }
        }
        if self.phase == Phase::Collecting && self.full == Some(self.taken) {
            self.phase = Phase::Reported;
        }
        if self.taken == self.capacity {
            self.phase = match self.phase {
                Phase::Searching => Phase::Unfound,
                Phase::Collecting => Phase::CutShort,
                ended => ended,
            };
        }
    }

    /// Whether it has come to an end.
    #[must_use]
    pub fn ended(&self) -> bool {
        !matches!(self.phase, Phase::Searching | Phase::Collecting)
    }

    /// The windows of its start, 0 before it has one.
    ///
    /// # Panics
    /// If it has a start that was not heard.
    #[must_use]
    pub fn windows(&self) -> usize {
        match self.phase {
            Phase::Searching | Phase::Unfound => 0,
            _ => self.heard.start.expect("a start was found").1.windows,
        }
    }

    /// End and the nine numbers of a read.
    ///
    /// # Panics
    /// Before the end.
    #[must_use]
    pub fn reading(&self) -> Reading {
        let mut numbers = [0; 9];
        numbers[0] = self.taken as u64;
        numbers[1] = self.evaluations as u64;
        let end = match self.phase {
            Phase::Reported => 0,
            Phase::Unfound => 1,
            Phase::CutShort => 2,
            Phase::Searching | Phase::Collecting => unreachable!("read before the end"),
        };
        if self.phase != Phase::Unfound {
            let (_, start) = self.heard.start.expect("a start was found");
            numbers[2] = self.anchor + start.position;
            numbers[3] = self.windows() as u64;
            numbers[4] = u64::from(start.quality.to_bits());
        }
        if self.phase == Phase::Reported {
            let report = self.heard.report.expect("the list holds the picture");
            numbers[5] = report.rate.to_bits();
            numbers[6] = report.slant.map_or(NO_SLANT, f64::to_bits);
            numbers[7] = report.skip as u64;
            numbers[8] = u64::from(report.quality.to_bits());
        }
        (end, numbers)
    }
}

/// The arguments of a feed.
#[derive(Clone)]
pub struct Feed {
    /// Length of the flag store.
    pub store: usize,
    /// Length of the sample store.
    pub audio: usize,
    /// Lengths of the work memory.
    pub img: usize,
    /// The second of them.
    pub votes: usize,
    /// The flags.
    pub flags: Vec<bool>,
    /// Flags that are neither 0 nor 1: place and value.
    pub odd: Vec<(usize, u8)>,
    /// The samples.
    pub samples: Vec<f32>,
}

/// Whether a sample is not finite or beyond 1.
#[must_use]
pub fn unsound(samples: &[f32]) -> bool {
    samples.iter().any(|s| !(s.is_finite() && s.abs() <= 1.0))
}

impl Feed {
    /// The lowest number that applies, 0 for none.
    #[must_use]
    pub fn refusal(&self, session: &Session) -> u64 {
        let short = is_robot(session.heard.mode) && self.audio < 4 * session.capacity + 4;
        if self.store != session.capacity || short || self.img < IMG || self.votes < VOTES {
            return 5;
        }
        if self.flags.len() > MOST_FLAGS || self.samples.len() != 4 * self.flags.len() {
            return 6;
        }
        if self.odd.iter().any(|&(_, value)| value > 1) {
            return 7;
        }
        if unsound(&self.samples) {
            return 8;
        }
        if session.ended() {
            return 10;
        }
        0
    }
}
