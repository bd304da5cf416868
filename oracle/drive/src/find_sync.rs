//! sync_vectors: `find_sync` on whole pictures.

use crate::modes::MODES;
use crate::record::{bits32, runs, words, Records};
use crate::rng::Rng;
use crate::tally::Tally;
use crate::train::{bursts, set, Train};
use slowrx::modespec::access::spec;
use slowrx::modespec::ModeSpec;
use slowrx::sync::access::{self as sync, Found, Scratch};
use std::collections::HashSet;

/// Longest list of flags, so that a program can hold it.
pub const LONGEST: usize = 1_000_000;

/// Stands for no slant.
pub const NO_SLANT: u64 = u64::MAX;

/// Starting rates: both ends, usual ones and odd ones.
pub const RATES: [f64; 8] = [
    8_000.0, 11_025.0, 44_100.0, 48_000.0, 11_017.3, 9_600.0, 22_050.5, 8_191.999,
];

/// The passes of one `find_sync`, made again one by one.
#[derive(Default)]
pub struct Passes {
    /// How many ran.
    pub made: usize,
    /// The angles of those that found one.
    pub angles: Vec<f64>,
}

/// Its loop, with `hough_detect_slant` itself, to know how many passes ran, and the last
/// rate.
pub fn passes(flags: &[bool], rate: f64, spec: ModeSpec, scratch: &mut Scratch) -> (Passes, f64) {
    let flags = &flags[..flags.len().min(sync::image_probes(spec, rate))];
    let mut passes = Passes::default();
    let mut rate = rate;
    for _ in 0..4 {
        passes.made += 1;
        let Some((angle, adjusted)) = sync::pass(flags, rate, spec, scratch) else {
            break;
        };
        passes.angles.push(angle);
        if (angle - 90.0).abs() > 0.5 {
            rate = adjusted;
        }
        if angle > 89.0 && angle < 91.0 {
            break;
        }
    }
    (passes, rate)
}

struct Driver {
    records: Records,
    tally: Tally,
    scratch: Scratch,
}

impl Driver {
    fn put(&mut self, flags: &[bool], rate: f64, mode: usize) -> Found {
        let row = spec(mode);
        let found = sync::find_sync(flags, rate, row, &mut self.scratch);
        let whole = sync::image_probes(row, rate);
        if flags.len() > whole {
            let first = sync::find_sync(&flags[..whole], rate, row, &mut self.scratch);
            assert_eq!(found, first, "flags after P were read");
        }
        let (passes, last_rate) = passes(flags, rate, row, &mut self.scratch);
        assert_eq!(found.rate.to_bits(), last_rate.to_bits());
        assert_eq!(found.slant, passes.angles.last().copied());
        let a = [mode as u64, rate.to_bits(), bits32(found.quality)];
        let slant = found.slant.map_or(NO_SLANT, f64::to_bits);
        let x = [found.rate.to_bits(), slant, found.skip as u64];
        self.records.long(0, a, x, &words(&runs(flags)));
        self.note(flags.len(), rate, mode, found, &passes);
        found
    }

    fn note(&mut self, taken: usize, rate: f64, mode: usize, found: Found, passes: &Passes) {
        let tally = &mut self.tally;
        let name = ["1 pass", "2 passes", "3 passes", "4 passes"][passes.made - 1];
        tally.note(name, true);
        tally.note(&format!("a slant in mode {mode}"), found.slant.is_some());
        tally.note("no slant", found.slant.is_none());
        let lost = passes.angles.len() < passes.made && !passes.angles.is_empty();
        tally.note("no slant in a later pass, after one was found", lost);
        let angle = found.slant.unwrap_or(f64::NAN);
        tally.note("slant 90", angle == 90.0);
        let kept = passes
            .angles
            .first()
            .is_some_and(|a| (a - 90.0).abs() == 0.5);
        tally.note("89.5 or 90.5 at first: the rate is kept", kept);
        let edge = passes.angles.iter().any(|&a| a == 89.0 || a == 91.0);
        tally.note("89 or 91: a further pass", edge);
        let first = passes.angles.first().copied().unwrap_or(f64::NAN);
        tally.note("slanted below 90", first < 89.0);
        tally.note("slanted above 90", first > 91.0);
        tally.note(
            "four passes and not straight",
            passes.angles.len() == 4 && !(angle > 89.0 && angle < 91.0),
        );
        let whole = sync::image_probes(spec(mode), rate);
        tally.note("shorter than P", taken < whole && taken > 0);
        tally.note("exactly P", taken == whole);
        tally.note("longer than P", taken > whole);
        tally.note("no flags", taken == 0);
        tally.note("skip below zero", found.skip < 0);
        tally.note("skip above zero", found.skip > 0);
        tally.note("quality 0", found.quality == 0.0);
        tally.note("quality inside", found.quality > 0.0 && found.quality < 1.0);
        tally.note("quality 0.9 and more", found.quality >= 0.9);
    }
}

/// All vectors of `find_sync`.
///
/// # Errors
/// Classes that were not reached.
pub fn vectors() -> Result<Records, String> {
    let mut tally = Tally::new(
        "sync: find_sync",
        &[
            "1 pass",
            "2 passes",
            "3 passes",
            "4 passes",
            "four passes and not straight",
            "no slant",
            "no slant in a later pass, after one was found",
            "slant 90",
            "89.5 or 90.5 at first: the rate is kept",
            "89 or 91: a further pass",
            "slanted below 90",
            "slanted above 90",
            "shorter than P",
            "exactly P",
            "longer than P",
            "no flags",
            "skip below zero",
            "skip above zero",
            "quality 0",
            "quality inside",
            "quality 0.9 and more",
            "drawn by (y + x / W) x L alone",
            "drawn by y x L + x / W x L alone: not at all",
            "folded by y x L + x / 700 x L alone",
            "folded by (y + x / 700) x L alone: not at all",
            "new rate whose last bit depends on the order of steps",
        ],
    );
    for mode in 0..MODES {
        tally.announce(format!("a slant in mode {mode}"));
    }
    let mut driver = Driver {
        records: Records::default(),
        tally,
        scratch: Scratch::default(),
    };
    let mut rng = Rng::new(4);
    for mode in 0..MODES {
        trains(&mut driver, &mut rng, mode);
        plain(&mut driver, &mut rng, mode);
        sparse(&mut driver, &mut rng, mode);
    }
    noise(&mut driver, &mut rng);
    for mode in 0..MODES {
        forms(&mut driver, mode);
        orders(&mut driver, &mut rng, mode);
    }
    driver.tally.report()?;
    Ok(driver.records)
}

/// A silent list of P flags, or as many as are held.
fn silent(mode: usize, rate: f64) -> Vec<bool> {
    vec![false; sync::image_probes(spec(mode), rate).min(LONGEST)]
}

/// Straight, slanted both ways, with missing lines and with noise.
fn trains(driver: &mut Driver, rng: &mut Rng, mode: usize) {
    let row = spec(mode);
    let steepest = 1.0 / sync::line_width(row) as f64;
    // parts of the steepest slant: straight, slight, strong, beyond
    let slants = [0.0, 0.0, 0.02, -0.02, 0.3, -0.3, 1.2, -1.2, 2.5, -2.5];
    for (i, part) in slants.into_iter().enumerate() {
        let rate = RATES[(i + mode) % RATES.len()];
        let mut train = Train::of(row, rate);
        train.first = rng.unit() * row.line_seconds;
        train.slower = part * steepest * (0.6 + 0.8 * rng.unit());
        let mut flags = silent(mode, rate);
        let missing = if i % 2 == 1 { rng.below(500) } else { 0 };
        train.draw(row, &mut flags, missing, rng);
        if i % 3 == 2 {
            bursts(&mut flags, 150, 12, rng);
        }
        driver.put(&flags, rate, mode);
    }
}

/// All ones, none, shorter than P, longer than P.
fn plain(driver: &mut Driver, rng: &mut Rng, mode: usize) {
    let row = spec(mode);
    let rate = 11_025.0;
    driver.put(&[], rate, mode);
    driver.put(&silent(mode, rate), rng.pick(&RATES), mode);
    let ones = vec![true; sync::image_probes(row, rate)];
    driver.put(&ones, rate, mode);
    let mut train = Train::of(row, rate);
    train.first = rng.unit() * row.line_seconds;
    train.slower = (rng.unit() - 0.5) / sync::line_width(row) as f64;
    let whole = sync::image_probes(row, rate);
    let mut flags = vec![false; whole / 3];
    train.draw(row, &mut flags, 0, rng);
    driver.put(&flags, rate, mode);
    // beyond P everything is set: none of it may be read
    let mut flags = vec![false; whole];
    train.draw(row, &mut flags, 100, rng);
    flags.extend(vec![true; 2_000 + rng.index(9_000)]);
    driver.put(&flags, rate, mode);
    // a lean with the last flag of P set, and one flag less
    let mut flags = vec![false; whole];
    set(&mut flags, whole - 3, whole);
    driver.put(&flags, rate, mode);
    driver.put(&flags[..whole - 1], rate, mode);
}

/// Few flags: ties between cells, passes that find nothing any more.
fn sparse(driver: &mut Driver, rng: &mut Rng, mode: usize) {
    for i in 0..24 {
        let rate = rng.pick(&RATES);
        let mut flags = silent(mode, rate);
        let number = [1, 1, 2, 3, 5, 9, 20, 40][i % 8];
        for _ in 0..number {
            let from = rng.index(flags.len());
            set(&mut flags, from, from + 1 + rng.index(1 + i * 3));
        }
        driver.put(&flags, rate, mode);
    }
}

/// Flags without any rhythm: bursts in all modes, dense ones in short modes.
fn noise(driver: &mut Driver, rng: &mut Rng) {
    for mode in 0..MODES {
        let rate = rng.pick(&RATES);
        let mut flags = silent(mode, rate);
        bursts(&mut flags, 250, 40, rng);
        driver.put(&flags, rate, mode);
    }
    for parts in [30, 100, 500] {
        let mut flags = silent(8, 8_000.0);
        flags.fill_with(|| rng.permille(parts));
        driver.put(&flags, 8_000.0, 8);
    }
}

/// The flags that are read for lines and `columns` of them, if the time of a
/// line and a part of it is this.
fn read_at(
    mode: usize,
    rate: f64,
    columns: usize,
    time: fn(f64, f64, f64) -> f64,
) -> HashSet<usize> {
    let row = spec(mode);
    let lines = 0..row.image_lines as usize;
    let all = lines.flat_map(|y| (0..columns).map(move |x| (y, x)));
    let flag = |(y, x)| {
        let part = x as f64 / columns as f64;
        (time(y as f64, part, row.line_seconds) * rate / 4.0) as usize
    };
    all.map(flag).collect()
}

/// A pass draws at (y + x / W) x L and the fold reads at y x L + x / 700 x L.
/// The two forms read other flags where the exact time is that of a flag:
/// lists of flags that only one of them reads.
fn forms(driver: &mut Driver, mode: usize) {
    let joined: fn(f64, f64, f64) -> f64 = |y, part, length| (y + part) * length;
    let apart: fn(f64, f64, f64) -> f64 = |y, part, length| y * length + part * length;
    let width = sync::line_width(spec(mode));
    for rate in [8_000.0, 11_025.0, 16_000.0, 48_000.0] {
        let limit = silent(mode, rate).len();
        let drawn = read_at(mode, rate, width, joined);
        let not_drawn = read_at(mode, rate, width, apart);
        let folded = read_at(mode, rate, 700, apart);
        let not_folded = read_at(mode, rate, 700, joined);
        let mut put = |wanted: &HashSet<usize>, without: [&HashSet<usize>; 2]| {
            let fits = |flag: &&usize| **flag < limit && without.iter().all(|w| !w.contains(flag));
            let mut places: Vec<usize> = wanted.iter().filter(fits).copied().collect();
            places.sort_unstable();
            let every = places.len() / 60 + 1;
            let mut flags = silent(mode, rate);
            for &place in places.iter().step_by(every) {
                flags[place] = true;
            }
            (!places.is_empty()).then(|| driver.put(&flags, rate, mode))
        };
        let none = HashSet::new();
        let found = [
            put(&drawn, [&not_drawn, &none]),
            put(&not_drawn, [&drawn, &none]),
            put(&folded, [&not_folded, &drawn]),
            put(&not_folded, [&folded, &drawn]),
        ];
        let is = |place: usize, test: fn(Found) -> bool| found[place].is_some_and(test);
        let tally = &mut driver.tally;
        tally.note(
            "drawn by (y + x / W) x L alone",
            is(0, |f| f.slant.is_some()),
        );
        let name = "drawn by y x L + x / W x L alone: not at all";
        tally.note(name, is(1, |f| f.slant.is_none()));
        let name = "folded by y x L + x / 700 x L alone";
        tally.note(name, is(2, |f| f.slant.is_none() && f.quality > 0.0));
        let name = "folded by (y + x / 700) x L alone: not at all";
        tally.note(name, is(3, |f| f.slant.is_none() && f.quality == 0.0));
    }
}

/// Whether rate + (tangent / W) x rate differs from the same number computed
/// in other orders.
fn order_tells(rate: f64, angle: f64, width: f64) -> bool {
    let tangent = sync::tangent(((angle - 30.0) * 2.0) as usize);
    let others = [
        rate + tangent * rate / width,
        rate + rate / width * tangent,
        rate * (1.0 + tangent / width),
    ];
    !others.contains(&(rate + (tangent / width) * rate))
}

/// Few flags, and a rate for which the order of steps tells in the new one.
fn orders(driver: &mut Driver, rng: &mut Rng, mode: usize) {
    let row = spec(mode);
    let width = sync::line_width(row) as f64;
    let mut kept = 0;
    while kept < 3 {
        let start = 8_000.0 + rng.unit() * 4_000.0;
        let mut flags = silent(mode, start);
        for _ in 0..4 {
            let from = rng.index(flags.len());
            set(&mut flags, from, from + 40);
        }
        let mut angle = |rate: f64| {
            let slant = sync::pass(&flags, rate, row, &mut driver.scratch);
            slant
                .map(|(angle, _)| angle)
                .filter(|a| (a - 90.0).abs() > 0.5)
        };
        let Some(first) = angle(start) else {
            continue;
        };
        let near = (0..100_000).map(|i| start + f64::from(i) / 16_384.0);
        let mut telling = near.filter(|&rate| order_tells(rate, first, width));
        let Some(rate) = telling.next() else {
            continue;
        };
        if angle(rate) == Some(first) {
            driver.put(&flags, rate, mode);
            let name = "new rate whose last bit depends on the order of steps";
            driver.tally.note(name, true);
            kept += 1;
        }
    }
}
