//! The calls on columns and counts.

use crate::run::Run;
use drive::modes::MODES;
use drive::pulse::{add_top, list, long_list, COLUMNS, LONGEST};
use drive::ring;
use drive::rng::Rng;
use drive::tally::Tally;
use recording::Call;
use slowrx::modespec::access::spec;
use slowrx::sync::access as sync;

/// What stands before the classes of a window.
const WINDOW: &str = "window: ";

/// The classes of these calls.
#[must_use]
pub fn tally() -> Tally {
    let mut tally = Tally::new(
        "columns, window, quality, edge",
        &[
            "columns: n 0",
            "columns: n 65,536",
            "columns: held at 1",
            "columns: inside",
            "quality: no counts",
            "quality: no lines",
            "quality: 65,536 counts",
            "quality: 65,536 lines",
            "quality: held at 0, below",
            "quality: 0 exactly",
            "quality: inside",
            "quality: 1 exactly",
            "quality: held at 1, above",
            "quality: 0.6",
            "quality: even number, the two in the middle unlike",
            "edge: none, no counts",
            "edge: none, although counts",
            "edge: up to 349",
            "edge: 350",
            "edge: above 350, taken back",
            "edge: tie, the first wins",
            "edge: window 692 would be best, not scanned",
            "edge: the last window scanned is the only fall",
            "edge: behind a rise over 600 columns",
            "edge: a count of 1,000,000",
        ],
    );
    ring::announce_list(&mut tally, WINDOW);
    tally
}

/// Some of each.
pub fn round(run: &mut Run, rng: &mut Rng) {
    for _ in 0..4 {
        columns(run, rng);
        window(run, rng);
        quality(run, rng);
        edge(run, rng);
    }
}

fn columns(run: &mut Run, rng: &mut Rng) {
    let mode = rng.index(MODES);
    let n = match rng.below(6) {
        0 => 0,
        1 => LONGEST,
        2 => rng.index(40),
        3 => rng.index(1_400),
        _ => rng.index(LONGEST + 1),
    };
    let (number, columns) = (mode as u64, n as u64);
    run.make(&Call::Columns {
        mode: number,
        n: columns,
    });
    let row = spec(mode);
    let raw = row.sync_seconds / row.line_seconds * n as f64;
    let tally = &mut run.classes.fold;
    tally.note("columns: n 0", n == 0);
    tally.note("columns: n 65,536", n == LONGEST);
    tally.note("columns: held at 1", n > 0 && raw.round() < 1.0);
    tally.note("columns: inside", raw.round() >= 1.0);
}

/// How many counts a list has: few mostly, sometimes the most.
fn number_of_counts(rng: &mut Rng) -> usize {
    match rng.below(10) {
        0 => 1,
        1..=5 => 2 + rng.index(39),
        _ => COLUMNS,
    }
}

fn counts(rng: &mut Rng) -> Vec<u32> {
    if rng.permille(40) {
        return match rng.below(3) {
            0 => vec![rng.below(1 << 32) as u32; LONGEST],
            _ => long_list(rng),
        };
    }
    let n = number_of_counts(rng);
    list(rng, n)
}

/// Counts with pulses of which several windows of this width have the largest
/// sum, often over the ring's end.
fn tops(rng: &mut Rng, n: usize, width: usize) -> Vec<u32> {
    let mut counts = vec![rng.below(3) as u32; n];
    for _ in 0..1 + rng.index(3) {
        let most = rng.pick(&[1, 3, 12, n]).min(n - width + 1);
        let windows = 1 + rng.index(most);
        let start = match rng.below(4) {
            0 => n - windows,
            1 => n - 1,
            _ => rng.index(n),
        };
        add_top(&mut counts, 1 + rng.below(3) as u32, start, width, windows);
    }
    counts
}

fn window(run: &mut Run, rng: &mut Rng) {
    let mut counts = counts(rng);
    let n = counts.len();
    if rng.permille(60) {
        counts[n - 1] = u32::MAX;
    }
    // The Rust's side takes n times the width for its count.
    let wide = rng.pick(&[4_096, 4_096, 4_096, LONGEST]).min(n);
    let width = match rng.below(6) {
        0 => n,
        1 => 1,
        2 => sync::sync_pulse_columns(spec(rng.index(MODES)), n),
        _ => 1 + rng.index(wide),
    };
    if rng.permille(250) {
        counts = tops(rng, n, width);
    }
    ring::note_list(&mut run.classes.fold, WINDOW, &counts, width);
    run.make(&Call::Window {
        width: width as u64,
        counts,
    });
}

/// A fold as a picture gives it: a pulse on most lines, hits elsewhere.
fn pulsed(rng: &mut Rng, mode: usize, lines: usize) -> Vec<u32> {
    let width = sync::sync_pulse_columns(spec(mode), COLUMNS);
    let full = match rng.below(3) {
        0 => lines as u32,
        1 => lines as u32 * 3 / 5,
        _ => rng.index(lines + 1) as u32,
    };
    let start = rng.index(COLUMNS);
    let mut counts = vec![0; COLUMNS];
    for i in 0..width {
        counts[(start + i) % COLUMNS] = full;
    }
    if rng.permille(600) {
        for _ in 0..rng.index(60) {
            counts[rng.index(COLUMNS)] += 1;
        }
    }
    counts
}

fn quality(run: &mut Run, rng: &mut Rng) {
    let mode = rng.index(MODES);
    let (counts, lines) = match rng.below(12) {
        0 if rng.permille(500) => (Vec::new(), rng.index(9)),
        // each third column empty: the median above every window's mean
        0 => {
            let full = rng.pick(&[1, 5, 240]);
            let third = |i| if i % 3 == 2 { 0 } else { full };
            ((0..COLUMNS).map(third).collect(), 1 + rng.index(240))
        }
        1..=5 => {
            let lines = rng.pick(&[8, 10, 14, 20, 30, 120, 240, 248, 256, 65_536]);
            (pulsed(rng, mode, lines), lines)
        }
        _ => {
            let counts = counts(rng);
            let top = counts.iter().max().map_or(5, |&c| c.min(65_535) as usize);
            let lines = match rng.below(5) {
                0 => rng.index(4),
                1 => 65_536,
                2 => top,
                _ => rng.index(top * 2 + 2).min(65_536),
            };
            (counts, lines)
        }
    };
    let call = Call::Quality {
        mode: mode as u64,
        lines: lines as u64,
        counts,
    };
    run.make(&call);
    if let Call::Quality { counts, .. } = call {
        note_quality(&mut run.classes.fold, counts, mode, lines);
    }
}

fn note_quality(tally: &mut Tally, mut counts: Vec<u32>, mode: usize, lines: usize) {
    let n = counts.len();
    tally.note("quality: no counts", n == 0);
    tally.note("quality: no lines", lines == 0 && n > 0);
    if n == 0 || lines == 0 {
        return;
    }
    let width = sync::sync_pulse_columns(spec(mode), n);
    let (_, best) = sync::best_pulse_window(&counts, width);
    counts.sort_unstable();
    let median = f64::from(counts[n / 2]);
    let raw = (best as f64 / width as f64 - median) / lines as f64;
    tally.note("quality: 65,536 counts", n == LONGEST);
    tally.note("quality: 65,536 lines", lines == 65_536);
    tally.note("quality: held at 0, below", raw < 0.0);
    tally.note("quality: 0 exactly", raw == 0.0);
    tally.note("quality: inside", raw > 0.0 && raw < 1.0);
    tally.note("quality: 1 exactly", raw == 1.0);
    tally.note("quality: held at 1, above", raw > 1.0);
    tally.note("quality: 0.6", raw as f32 == 0.6);
    let unlike = n.is_multiple_of(2) && counts[n / 2] != counts[n / 2 - 1];
    let name = "quality: even number, the two in the middle unlike";
    tally.note(name, unlike);
}

/// 700 counts of one of seven shapes.
fn edge_counts(rng: &mut Rng) -> Vec<u32> {
    let mut counts = vec![0; COLUMNS];
    match rng.below(12) {
        0 => {}
        // one count alone, also around columns 350 and 695
        1..=3 => {
            let x = match rng.below(4) {
                0 => 348 + rng.index(3),
                1 => 690 + rng.index(10),
                _ => rng.index(COLUMNS),
            };
            counts[x] = rng.pick(&[1, 2, 240, 1_000_000]);
        }
        // pulses, some of them alike, on a ground
        4..=6 => {
            counts.fill(rng.below(5) as u32);
            let height = rng.pick(&[1, 240, 256, 999_000]);
            for _ in 0..1 + rng.index(4) {
                let (start, width) = (rng.index(COLUMNS), 1 + rng.index(60));
                counts[start..(start + width).min(COLUMNS)].fill(height);
            }
        }
        // a fall or a rise only, also in the last columns
        7 | 8 => {
            let last = rng.permille(500);
            let x = if last {
                690 + rng.index(10)
            } else {
                rng.index(COLUMNS)
            };
            let part = if rng.permille(500) {
                &mut counts[..x]
            } else {
                &mut counts[x..]
            };
            part.fill(rng.pick(&[1, 7, 1_000_000]));
        }
        // a rise column by column up to the last ones, and no counts behind it
        9 => {
            let (end, step) = (690 + rng.index(10), rng.pick(&[1, 2, 1_430]));
            let rise = (0_u32..).map(|x| x * step);
            for (count, height) in counts[..end].iter_mut().zip(rise) {
                *count = height;
            }
        }
        _ => {
            let top = rng.pick(&[2, 4, 241, 1_000_001]);
            counts.fill_with(|| rng.below(top) as u32);
        }
    }
    counts
}

fn edge(run: &mut Run, rng: &mut Rng) {
    let counts = edge_counts(rng);
    let call = Call::Edge { counts };
    run.make(&call);
    let Call::Edge { counts } = call else {
        return;
    };
    let four = |from: usize| counts[from..from + 4].iter().map(|&c| i64::from(c)).sum();
    let fall = |x: usize| -> i64 {
        let (now, next): (i64, i64) = (four(x), four(x + 4));
        now - next
    };
    let best = (0..692).map(fall).max().unwrap_or(0);
    let first = (0..692).find(|&x| best > 0 && fall(x) == best);
    let column = first.map_or(0, |x| x + 4);
    let some = counts.iter().any(|&c| c > 0);
    let again = first.is_some_and(|x| (x + 1..692).any(|later| fall(later) == best));
    let tally = &mut run.classes.fold;
    tally.note("edge: none, no counts", !some);
    tally.note("edge: none, although counts", column == 0 && some);
    tally.note("edge: up to 349", column > 0 && column < 350);
    tally.note("edge: 350", column == 350);
    tally.note("edge: above 350, taken back", column > 350);
    tally.note("edge: tie, the first wins", again);
    let name = "edge: window 692 would be best, not scanned";
    tally.note(name, fall(692) > best.max(0));
    let name = "edge: the last window scanned is the only fall";
    tally.note(name, fall(691) > 0 && (0..691).all(|x| fall(x) <= 0));
    let name = "edge: behind a rise over 600 columns";
    tally.note(name, best > 0 && (0..600).all(|x| fall(x) < 0));
    let name = "edge: a count of 1,000,000";
    tally.note(name, counts.contains(&1_000_000));
}
