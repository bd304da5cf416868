//! A session that runs as its calls come in, over the Rust's detector and
//! `find_sync`. It is written apart from the one that made the vectors.

use crate::plain::Reading;
use crate::search::Search;
use slowrx::modespec::access::spec;
use slowrx::sync::access::{self as sync, Found, Scratch};
use slowrx::sync_start::access::{window_probes, Start};

/// The session last opened, if any.
#[derive(Default)]
pub struct Live {
    state: Option<State>,
    scratch: Scratch,
}

struct State {
    mode: usize,
    anchor: u64,
    capacity: usize,
    search: Search,
    flags: Vec<bool>,
    start: Option<Start>,
    report: Option<Found>,
    /// 0 reported, 1 unfound, 2 cut short.
    end: Option<u64>,
}

/// The first number whose condition holds, 0 for none.
fn lowest(conditions: &[(bool, u64)]) -> u64 {
    let first = conditions.iter().find(|(applies, _)| *applies);
    first.map_or(0, |(_, number)| *number)
}

fn loud(sample: &f32) -> bool {
    // also for NaN
    !(-1.0..=1.0).contains(sample)
}

fn robot(mode: u64) -> bool {
    mode == 3 || mode == 4
}

impl Live {
    /// Gives the refusal, 0 for none.
    pub fn open(&mut self, mode: u64, anchor: u64, stores: [usize; 2], first: &[f32]) -> u64 {
        let [capacity, samples] = stores;
        if mode > 15 {
            return 1;
        }
        let row = spec(mode as usize);
        let least = window_probes(row) + sync::image_probes(row, 11_025.0);
        let asked = capacity.saturating_mul(4).saturating_add(4);
        let refusal = lowest(&[
            (anchor > 1 << 62, 4),
            (capacity < least || capacity > 1 << 24, 5),
            (robot(mode) && samples < asked, 5),
            (first.len() != 4, 6),
            (first.iter().any(loud), 8),
        ]);
        if refusal == 0 {
            self.state = Some(State {
                mode: mode as usize,
                anchor,
                capacity,
                search: Search::new(mode as usize, first),
                flags: Vec::new(),
                start: None,
                report: None,
                end: None,
            });
        }
        refusal
    }

    /// Gives the refusal, 0 for none, and how many flags were taken.
    ///
    /// # Panics
    /// Before an open.
    pub fn feed(
        &mut self,
        stores: [usize; 2],
        memory: [usize; 2],
        flags: &[u8],
        samples: &[f32],
    ) -> (u64, u64) {
        let state = self.state.as_mut().expect("a session is open");
        let few = robot(state.mode as u64) && stores[1] < 4 * state.capacity + 4;
        let refusal = lowest(&[
            (stores[0] != state.capacity || few, 5),
            (memory[0] < 700 * 630 || memory[1] < 600 * 240, 5),
            (flags.len() > 1 << 24 || samples.len() != 4 * flags.len(), 6),
            (flags.iter().any(|&flag| flag > 1), 7),
            (samples.iter().any(loud), 8),
            (state.end.is_some(), 10),
        ]);
        if refusal > 0 {
            return (refusal, 0);
        }
        let before = state.flags.len();
        for (&flag, four) in flags.iter().zip(samples.chunks_exact(4)) {
            state.step(flag == 1, four, &mut self.scratch);
            if state.end.is_some() {
                break;
            }
        }
        (0, (state.flags.len() - before) as u64)
    }

    /// The mode of the session last opened.
    ///
    /// # Panics
    /// Before an open.
    #[must_use]
    pub fn mode(&self) -> usize {
        self.state.as_ref().expect("a session is open").mode
    }

    /// The flags that it has taken.
    ///
    /// # Panics
    /// Before an open.
    #[must_use]
    pub fn flags(&self) -> &[bool] {
        &self.state.as_ref().expect("a session is open").flags
    }

    /// End and numbers, or nothing before the end.
    ///
    /// # Panics
    /// Before an open.
    #[must_use]
    pub fn read(&self) -> Option<Reading> {
        let state = self.state.as_ref().expect("a session is open");
        let end = state.end?;
        let mut numbers = [0; 9];
        numbers[0] = state.flags.len() as u64;
        numbers[1] = state.search.evaluations.len() as u64;
        if let Some(start) = state.start {
            numbers[2] = state.anchor + start.position;
            numbers[3] = start.windows as u64;
            numbers[4] = u64::from(start.quality.to_bits());
        }
        if let Some(report) = state.report {
            numbers[5] = report.rate.to_bits();
            numbers[6] = report.slant.map_or(u64::MAX, f64::to_bits);
            numbers[7] = report.skip as u64;
            numbers[8] = u64::from(report.quality.to_bits());
        }
        Some((end, numbers))
    }
}

impl State {
    fn step(&mut self, flag: bool, four: &[f32], scratch: &mut Scratch) {
        self.flags.push(flag);
        let taken = self.flags.len();
        if self.start.is_none() {
            self.start = self.search.step(flag, four);
        }
        let row = spec(self.mode);
        if let Some(start) = self.start {
            let f = (start.position / 4) as usize;
            if taken == f + sync::image_probes(row, 11_025.0) {
                self.report = Some(sync::find_sync(&self.flags[f..], 11_025.0, row, scratch));
                self.end = Some(0);
            }
        }
        if taken == self.capacity && self.end.is_none() {
            self.end = Some(if self.start.is_some() { 2 } else { 1 });
        }
    }
}
