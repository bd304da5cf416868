//! Evaluations whose answer depends on one flag or one sample, put together
//! column by column. Random pictures do not reach them.

use crate::dsp::tone;
use crate::rng::Rng;
use crate::scene::{is_robot, Sound, RATE};
use crate::search::{evaluate, kept, placed, taken_at, COLUMNS};
use crate::start::Driver;
use crate::train::set;
use slowrx::dsp::access::goertzel_power;
use slowrx::modespec::access::spec;
use slowrx::sync::access::{best_pulse_window, sync_pulse_columns};
use slowrx::sync_start::access as sync_start;

/// What is reached here.
pub const CLASSES: [&str; 16] = [
    "min(64j, 65) and 64j give different lines",
    "the same in a whole search",
    "narrow: run at the lower end of the search",
    "narrow: run that begins one flag before it",
    "narrow: run at the upper end of the search",
    "narrow: run that ends one flag after it",
    "narrow: run one flag too short",
    "narrow: two runs, each too short",
    "wide: a line with half its columns or a column more",
    "wide: a line with a column less",
    "parity depends on 49 samples, not 50",
    "parity depends on the segment's start being rounded",
    "parity by the last segment alone, wholly known",
    "parity: the last segment lacks one sample",
    "three fifths: 0.6 and a start",
    "a column less: below 0.6",
];

/// All of them for one mode.
pub fn evaluations(driver: &mut Driver, rng: &mut Rng, mode: usize) {
    if sync_pulse_columns(spec(mode), COLUMNS) >= sync_start::WIDE {
        half_lines(driver, rng, mode);
    } else {
        shifted_lines(driver, mode);
        runs_at_ends(driver, rng, mode);
    }
    three_fifths(driver, rng, mode);
    if is_robot(mode) {
        last_segment(driver, mode);
        noisy_segments(driver, rng, mode);
    }
}

/// The flags of evaluation `j` that a mode's pulse at `column` covers.
struct Grid {
    mode: usize,
    j: usize,
    column: usize,
    width: usize,
}

impl Grid {
    fn new(mode: usize, j: usize, column: usize) -> Self {
        let width = sync_pulse_columns(spec(mode), COLUMNS);
        Self {
            mode,
            j,
            column,
            width,
        }
    }

    /// The flag that the fold reads for a line and column.
    fn flag(&self, line: usize, column: usize) -> usize {
        let lines = line as f64 + column as f64 / 700.0;
        64 * self.j + (lines * (spec(self.mode).line_seconds * RATE) / 4.0) as usize
    }

    /// A list with pulses in all lines from `line` on.
    fn pulses_from(&self, line: usize) -> Sound {
        let mut sound = Sound::silent(taken_at(self.mode, self.j));
        for later in line..sync_start::window_lines(spec(self.mode)) {
            let first = self.flag(later, self.column);
            let last = self.flag(later, self.column + self.width - 1);
            set(&mut sound.flags, first, last + 1);
        }
        sound
    }

    /// Whether the fold has its best window at the column meant.
    fn is_best(&self, sound: &Sound) -> bool {
        let placed = placed(self.mode, sound, self.j, kept(self.j), 0);
        best_pulse_window(&placed.counts(), self.width).0 == self.column
    }

    /// Where `line_is_pulsed` begins and ends to look at line `y` if `first`
    /// flags are kept before the window.
    fn ends(&self, y: usize, first: usize) -> (usize, usize) {
        let row = spec(self.mode);
        let line_probes = row.line_seconds * RATE / 4.0;
        let pulse_probes = row.sync_seconds * RATE / 4.0;
        let start = first as f64 + (y as f64 + self.column as f64 / 700.0) * line_probes;
        let lo = (start - 4.0).max(0.0) as usize;
        let hi = (start + pulse_probes + 4.0) as usize;
        (lo + 64 * self.j - first, hi + 64 * self.j - first)
    }

    /// The shortest run that makes a line pulsed.
    fn run(&self) -> usize {
        let pulse_probes = spec(self.mode).sync_seconds * RATE / 4.0;
        (0.5 * pulse_probes).min(10.0).ceil() as usize
    }
}

/// Evaluations whose first line depends on `first` being min(64j, 65), not 64j:
/// the end of a line's search is cut to another flag by the larger number.
fn shifted_lines(driver: &mut Driver, mode: usize) {
    let width = sync_pulse_columns(spec(mode), COLUMNS);
    for (j, y) in [(2, 0), (2, 1), (3, 0), (9, 1), (30, 0)] {
        for column in 0..COLUMNS - width {
            let Some(sound) = shifted(&Grid::new(mode, j, column), y) else {
                continue;
            };
            let other = placed(mode, &sound, j, 64 * j, 2).evaluate();
            if evaluate(mode, &sound, j, 2).start == other {
                continue;
            }
            let made = driver.evaluation(mode, &sound, j, 2);
            let name = "min(64j, 65) and 64j give different lines";
            driver.tally.note(name, made.start != other);
            if j == 2 {
                let whole = driver.search(mode, &sound) == made.start;
                let name = "the same in a whole search";
                driver.tally.note(name, whole && made.start.is_some());
            }
            break;
        }
    }
}

/// Pulses in all lines after `y`, and in line `y` a run that is just long
/// enough if the search begins (or ends) where one of the two readings cuts.
fn shifted(grid: &Grid, y: usize) -> Option<Sound> {
    let ((lo, hi), (other_lo, other_hi)) = (grid.ends(y, 65), grid.ends(y, 64 * grid.j));
    let run = grid.run();
    let from = if lo != other_lo {
        lo.min(other_lo)
    } else if hi != other_hi {
        hi.max(other_hi) - run
    } else {
        return None;
    };
    let mut sound = grid.pulses_from(y + 1);
    set(&mut sound.flags, from, from + run);
    Some(sound)
}

/// A narrow pulse's line `y` with a run at the ends of the search, or too
/// short; all later lines have their pulse.
fn runs_at_ends(driver: &mut Driver, rng: &mut Rng, mode: usize) {
    for (j, y) in [(0, 1), (1, 0), (2, 0), (2, 1), (7, 1)] {
        let column = 20 + rng.index(COLUMNS - 120);
        let grid = Grid::new(mode, j, column);
        let (lo, hi) = grid.ends(y, kept(j));
        let run = grid.run();
        let middle = (lo + hi) / 2 - run / 2;
        let shapes = [
            (CLASSES[2], vec![(lo, lo + run)], true),
            (CLASSES[3], vec![(lo - 1, lo - 1 + run)], false),
            (CLASSES[4], vec![(hi - run, hi)], true),
            (CLASSES[5], vec![(hi - run + 1, hi + 1)], false),
            (CLASSES[6], vec![(middle, middle + run - 1)], false),
            (
                CLASSES[7],
                vec![(lo, lo + run - 1), (lo + run, lo + 2 * run - 1)],
                false,
            ),
        ];
        for (class, stretches, pulsed) in shapes {
            let mut sound = grid.pulses_from(y + 1);
            for (from, to) in stretches {
                set(&mut sound.flags, from, to);
            }
            if !grid.is_best(&sound) {
                continue;
            }
            let here = placed(mode, &sound, j, kept(j), 2);
            assert_eq!(here.line_is_pulsed(y, column), pulsed, "{class}");
            let made = driver.evaluation(mode, &sound, j, 2);
            driver.tally.note(class, made.start.is_some());
        }
    }
}

/// A list whose start depends on one flag or two at evaluation 2: line 0 or 1
/// has a narrow pulse's run at an end of the search, or one flag beyond it, or
/// about half of a wide pulse; all later lines have their pulse.
pub fn hanging(rng: &mut Rng, mode: usize) -> Sound {
    let (j, y) = (2, rng.index(2));
    let grid = Grid::new(mode, j, 20 + rng.index(COLUMNS - 120));
    let mut sound = grid.pulses_from(y + 1);
    let (lo, hi) = grid.ends(y, kept(j));
    let run = grid.run();
    let (from, length) = if grid.width >= sync_start::WIDE {
        let first = grid.flag(y, grid.column);
        let half = (grid.flag(y, grid.column + grid.width) - first) / 2;
        (first, (half + rng.index(7)).saturating_sub(3))
    } else {
        match rng.below(6) {
            0 => (lo, run),
            1 => (lo - 1, run),
            2 => (hi - run, run),
            3 | 4 => (hi - run + 1, run),
            _ => ((lo + hi) / 2 - run / 2, run - 1),
        }
    };
    set(&mut sound.flags, from, from + length);
    sound
}

/// A list whose start is found at evaluation 2, and each of whose evaluations has
/// another count of windows with the largest sum. The pulses are longer than the
/// mode's. Line 0 lacks some flags at both ends of its pulse: at evaluation 1 the
/// first of them are behind the window, at evaluation 2 the last ones too.
pub fn three_counts(rng: &mut Rng, mode: usize) -> Sound {
    let line = spec(mode).line_seconds * RATE / 4.0;
    let length = (line as usize * 2 / 5).min(120);
    let mut sound = Sound::silent(taken_at(mode, 2));
    for y in 0..sync_start::window_lines(spec(mode)) + 2 {
        let from = (y as f64 * line) as usize;
        set(&mut sound.flags, from, from + length);
    }
    sound.flags[..6 + rng.index(3)].fill(false);
    sound.flags[length - 6 - rng.index(3)..length].fill(false);
    sound
}

/// A wide pulse's line with about half its columns.
fn half_lines(driver: &mut Driver, rng: &mut Rng, mode: usize) {
    for (j, y) in [(0, 0), (2, 1), (5, 0)] {
        let column = 20 + rng.index(COLUMNS - 220);
        let grid = Grid::new(mode, j, column);
        let first = grid.flag(y, column);
        for length in 0..grid.width * 4 {
            let mut sound = grid.pulses_from(y + 1);
            set(&mut sound.flags, first, first + length);
            let here = placed(mode, &sound, j, kept(j), 2);
            let hits = here.hits(y, column, grid.width);
            if 2 * hits > grid.width + 1 {
                break;
            }
            if 2 * hits + 2 < grid.width || !grid.is_best(&sound) {
                continue;
            }
            let enough = 2 * hits >= grid.width;
            let made = driver.evaluation(mode, &sound, j, 2);
            let found = made.start.is_some();
            let name = "wide: a line with half its columns or a column more";
            driver.tally.note(name, found && enough);
            let name = "wide: a line with a column less";
            driver.tally.note(name, found && !enough);
        }
    }
}

/// Where a Robot line's parity tone begins, before it is rounded.
fn tone_start(grid: &Grid, k: usize) -> f64 {
    let row = spec(grid.mode);
    let separator =
        row.sync_seconds + row.porch_seconds + 2.0 * f64::from(row.line_pixels) * row.pixel_seconds;
    line_start(grid) + (k as f64 * row.line_seconds + separator) * RATE
}

/// Where the first line begins, a pulse being in line 0.
fn line_start(grid: &Grid) -> f64 {
    let pulse = (grid.column as f64 / 700.0) * spec(grid.mode).line_seconds;
    (4 * 64 * grid.j) as f64 + pulse * RATE
}

/// Only the last line has a tone: at the first column its segment is wholly
/// known, at the second it lacks one sample.
fn last_segment(driver: &mut Driver, mode: usize) {
    let last = sync_start::window_lines(spec(mode)) - 1;
    for j in [2, 6] {
        let known = 4 * (taken_at(mode, j) + 1);
        for column in 0..COLUMNS - 50 {
            let grid = Grid::new(mode, j, column);
            let from = tone_start(&grid, last).round() as usize;
            let lacks = (from + 49).checked_sub(known);
            let class = match lacks {
                Some(1) => "parity: the last segment lacks one sample",
                None if from + 52 > known => "parity by the last segment alone, wholly known",
                _ => continue,
            };
            let mut sound = grid.pulses_from(0);
            let even = tone(1500.0, 0.7, 0.3);
            let room = &mut sound.samples[from..(from + 49).min(known)];
            room.copy_from_slice(&even[..room.len()]);
            let here = placed(mode, &sound, j, kept(j), 2);
            assert_eq!(here.first_line_is_odd(line_start(&grid)), lacks.is_none());
            let made = driver.evaluation(mode, &sound, j, 2);
            driver.tally.note(class, made.start.is_some());
        }
    }
}

/// The vote on parity with segments of `len` samples that begin where `at`
/// puts them.
fn vote(grid: &Grid, known: &[f32], len: usize, at: fn(f64) -> f64) -> bool {
    let mut vote = 0.0;
    for k in 0..sync_start::window_lines(spec(grid.mode)) {
        let from = at(tone_start(grid, k)) as usize;
        let Some(segment) = known.get(from..from + len) else {
            continue;
        };
        let even = goertzel_power(segment, 1500.0);
        let odd = goertzel_power(segment, 2300.0);
        let lean = (odd - even) / (odd + even + f64::EPSILON);
        vote += if k % 2 == 0 { lean } else { -lean };
    }
    vote > 0.0
}

/// Noise in place of tones, kept where another length or place of the
/// segments would tell another parity.
fn noisy_segments(driver: &mut Driver, rng: &mut Rng, mode: usize) {
    let (mut by_length, mut by_place) = (0, 0);
    while by_length < 4 || by_place < 4 {
        let grid = Grid::new(mode, 2 + rng.index(4), rng.index(COLUMNS - 50));
        let mut sound = grid.pulses_from(0);
        let taken = taken_at(mode, grid.j);
        for k in 0..sync_start::window_lines(spec(mode)) {
            let from = tone_start(&grid, k) as usize;
            for sample in sound.samples.iter_mut().skip(from).take(51) {
                *sample = rng.sample();
            }
        }
        let known = sound.known(taken);
        let odd = vote(&grid, known, 49, f64::round);
        let here = placed(mode, &sound, grid.j, kept(grid.j), 2);
        assert_eq!(here.first_line_is_odd(line_start(&grid)), odd);
        let length = vote(&grid, known, 50, f64::round) != odd;
        let place = vote(&grid, known, 49, f64::floor) != odd;
        if !(length && by_length < 4 || place && by_place < 4) || !grid.is_best(&sound) {
            continue;
        }
        by_length += usize::from(length);
        by_place += usize::from(place);
        let made = driver.evaluation(mode, &sound, grid.j, 2);
        let found = made.start.is_some();
        let name = "parity depends on 49 samples, not 50";
        driver.tally.note(name, found && length);
        let name = "parity depends on the segment's start being rounded";
        driver.tally.note(name, found && place);
    }
}

/// Three fifths of all columns of the pulse are set: quality 0.6. Then one
/// column less.
fn three_fifths(driver: &mut Driver, rng: &mut Rng, mode: usize) {
    let lines = sync_start::window_lines(spec(mode));
    let width = sync_pulse_columns(spec(mode), COLUMNS);
    if !(3 * lines * width).is_multiple_of(5) {
        return;
    }
    let wanted = 3 * lines * width / 5;
    for (j, less) in [(0, 0), (0, 1), (2, 0), (2, 1), (9, 0)] {
        let grid = Grid::new(mode, j, 20 + rng.index(COLUMNS - 120));
        let (full, rest) = ((wanted - less) / width, (wanted - less) % width);
        let mut sound = grid.pulses_from(lines - full);
        if rest > 0 {
            let line = lines - full - 1;
            let last = grid.flag(line, grid.column + rest - 1);
            set(&mut sound.flags, grid.flag(line, grid.column), last + 1);
        }
        let made = driver.evaluation(mode, &sound, j, 2);
        let sixth = made.quality.to_bits() == 0.6_f32.to_bits();
        driver.tally.note(
            "three fifths: 0.6 and a start",
            sixth && made.start.is_some(),
        );
        let below = made.quality < 0.6 && made.streak == 0;
        driver
            .tally
            .note("a column less: below 0.6", less == 1 && below);
    }
}
