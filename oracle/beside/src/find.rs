//! `find_sync` on lists of many shapes, at many rates.

use crate::run::Run;
use drive::find_sync::{passes, Passes, RATES};
use drive::modes::MODES;
use drive::plain::{IMG, VOTES};
use drive::rng::Rng;
use drive::tally::Tally;
use drive::train::{bursts, set, Train};
use recording::{Answer, Call, Length, Report};
use slowrx::modespec::access::spec;
use slowrx::sync::access::{self as sync, Scratch};

/// The classes of `find_sync`.
#[must_use]
pub fn tally() -> Tally {
    let mut tally = Tally::new(
        "find_sync",
        &[
            "1 pass",
            "2 passes",
            "3 passes",
            "4 passes",
            "four passes and not straight",
            "no slant",
            "no slant in a later pass, after one was found",
            "slant 90",
            "89.5 or 90.5 at first: the rate is kept",
            "89 or 91: a further pass",
            "slanted below 90",
            "slanted above 90",
            "no flags",
            "shorter than P",
            "exactly P",
            "longer than P",
            "all ones",
            "skip below zero",
            "skip above zero",
            "quality 0",
            "quality inside",
            "quality 0.9 and more",
            "rate 8,000",
            "rate 48,000",
            "work memory longer than asked",
        ],
    );
    for mode in 0..MODES {
        tally.announce(format!("a slant in mode {mode}"));
    }
    tally
}

/// A train in the round's mode, and some shapes that cost less.
pub fn round(run: &mut Run, rng: &mut Rng) {
    let mode = (run.round % MODES as u64) as usize;
    let rate = some_rate(rng);
    let flags = train(rng, mode, rate);
    put(run, rng, mode, rate, flags);
    for _ in 0..2 {
        let (mode, rate) = (rng.index(MODES), some_rate(rng));
        let flags = sparse(rng, mode, rate);
        put(run, rng, mode, rate, flags);
    }
    let (mode, rate) = (rng.index(MODES), some_rate(rng));
    let flags = other(rng, mode, rate);
    put(run, rng, mode, rate, flags);
    // all ones take the Rust long: the short modes, and seldom any mode
    let ones = match run.round {
        round if round % 1_000 == 999 => Some(rng.index(MODES)),
        round if round % 50 == 7 => Some(6 + rng.index(3)),
        _ => None,
    };
    if let Some(mode) = ones {
        let flags = vec![1; sync::image_probes(spec(mode), 11_025.0)];
        put(run, rng, mode, 11_025.0, flags);
        run.classes.find.note("all ones", true);
    }
}

/// Mostly rates at which a list is not too long.
fn some_rate(rng: &mut Rng) -> f64 {
    match rng.below(10) {
        0..=2 => 11_025.0,
        3..=5 => rng.pick(&RATES),
        6 | 7 => 10_900.0 + rng.unit() * 250.0,
        8 => 8_000.0 + rng.unit() * 4_000.0,
        _ => 8_000.0 + rng.unit() * 40_000.0,
    }
}

fn silent(mode: usize, rate: f64) -> Vec<bool> {
    vec![false; sync::image_probes(spec(mode), rate)]
}

fn bytes(flags: &[bool]) -> Vec<u8> {
    flags.iter().map(|&flag| u8::from(flag)).collect()
}

/// Straight or slanted, some with lines missing, some with noise.
fn train(rng: &mut Rng, mode: usize, rate: f64) -> Vec<u8> {
    let row = spec(mode);
    let steepest = 1.0 / sync::line_width(row) as f64;
    // parts of the steepest slant: straight, slight, strong, beyond
    let part = match rng.below(4) {
        0 => 0.0,
        1 => rng.pick(&[0.009, -0.009, 0.02, -0.02]),
        _ => rng.pick(&[0.3, -0.3, 1.2, -1.2, 2.5, -2.5]),
    };
    let mut train = Train::of(row, rate);
    train.first = rng.unit() * row.line_seconds;
    train.slower = part * steepest * (0.6 + 0.8 * rng.unit());
    if rng.permille(500) {
        train.lines = 1 + rng.index(train.lines / 2);
    }
    let mut flags = silent(mode, rate);
    let missing = if rng.permille(500) { rng.below(500) } else { 0 };
    train.draw(row, &mut flags, missing, rng);
    if rng.permille(300) {
        bursts(&mut flags, 100, 12, rng);
    }
    // a list of another length than P, set beyond it: nothing of that is read
    match rng.below(6) {
        0 => flags.truncate(flags.len() / 3),
        1 => flags.extend(vec![true; 1 + rng.index(9_000)]),
        _ => {}
    }
    bytes(&flags)
}

/// Few flags: ties between cells, passes that find nothing any more.
fn sparse(rng: &mut Rng, mode: usize, rate: f64) -> Vec<u8> {
    let mut flags = silent(mode, rate);
    let longest = 1 + rng.index(70);
    for _ in 0..rng.pick(&[1, 1, 2, 3, 5, 9, 20]) {
        let from = rng.index(flags.len());
        set(&mut flags, from, from + 1 + rng.index(longest));
    }
    bytes(&flags)
}

/// None, silence, the last flags of P, noise.
fn other(rng: &mut Rng, mode: usize, rate: f64) -> Vec<u8> {
    let mut flags = silent(mode, rate);
    let whole = flags.len();
    match rng.below(5) {
        0 => return Vec::new(),
        1 => {}
        2 => {
            set(&mut flags, whole - 3, whole);
            flags.truncate(whole - rng.index(2));
        }
        3 => bursts(&mut flags, 60, 40, rng),
        // a dense stretch without rhythm
        _ => {
            let from = rng.index(whole);
            let to = (from + 3_000).min(whole);
            flags[from..to].fill_with(|| rng.permille(300));
        }
    }
    bytes(&flags)
}

/// Compares one call and counts its classes.
fn put(run: &mut Run, rng: &mut Rng, mode: usize, rate: f64, flags: Vec<u8>) {
    let spare = rng.below(3);
    let call = Call::Find {
        mode: mode as u64,
        rate,
        img: Length::Exactly(IMG as u64 + spare),
        votes: Length::Exactly(VOTES as u64 + spare),
        flags,
    };
    let Answer::Found(report) = run.make(&call) else {
        return;
    };
    let Call::Find { flags, .. } = call else {
        return;
    };
    let tally = &mut run.classes.find;
    tally.note("work memory longer than asked", spare > 0);
    tally.note("rate 8,000", rate == 8_000.0);
    tally.note("rate 48,000", rate == 48_000.0);
    note_length(tally, flags.len(), sync::image_probes(spec(mode), rate));
    note_report(tally, mode, &report);
    // the passes are made again to be counted; a dense list takes the Rust long
    if flags.iter().filter(|&&flag| flag == 1).count() < 4_000 {
        let flags: Vec<bool> = flags.iter().map(|&flag| flag == 1).collect();
        let (made, _) = passes(&flags, rate, spec(mode), &mut Scratch::default());
        note_passes(tally, &made);
    }
}

fn note_length(tally: &mut Tally, length: usize, whole: usize) {
    tally.note("no flags", length == 0);
    tally.note("shorter than P", length > 0 && length < whole);
    tally.note("exactly P", length == whole);
    tally.note("longer than P", length > whole);
}

fn note_report(tally: &mut Tally, mode: usize, report: &Report) {
    tally.note(&format!("a slant in mode {mode}"), report.slant.is_some());
    tally.note("no slant", report.slant.is_none());
    tally.note("slant 90", report.slant == Some(90.0));
    tally.note("skip below zero", report.skip < 0);
    tally.note("skip above zero", report.skip > 0);
    let quality = report.quality;
    tally.note("quality 0", quality == 0.0);
    tally.note("quality inside", quality > 0.0 && quality < 1.0);
    tally.note("quality 0.9 and more", quality >= 0.9);
}

fn note_passes(tally: &mut Tally, passes: &Passes) {
    let angles = &passes.angles;
    let name = ["1 pass", "2 passes", "3 passes", "4 passes"][passes.made - 1];
    tally.note(name, true);
    let lost = angles.len() < passes.made && !angles.is_empty();
    tally.note("no slant in a later pass, after one was found", lost);
    let first = angles.first().copied().unwrap_or(f64::NAN);
    let last = angles.last().copied().unwrap_or(f64::NAN);
    let kept = (first - 90.0).abs() == 0.5;
    tally.note("89.5 or 90.5 at first: the rate is kept", kept);
    let edge = angles.iter().any(|&a| a == 89.0 || a == 91.0);
    tally.note("89 or 91: a further pass", edge);
    tally.note("slanted below 90", first < 89.0);
    tally.note("slanted above 90", first > 91.0);
    let straight = last > 89.0 && last < 91.0;
    tally.note(
        "four passes and not straight",
        angles.len() == 4 && !straight,
    );
}
