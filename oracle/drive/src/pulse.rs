//! pulse_vectors: pulse window, quality and falling edge on lists of counts.

use crate::modes::MODES;
use crate::record::{bits32, words, Records};
use crate::ring;
use crate::rng::Rng;
use crate::tally::Tally;
use slowrx::modespec::access::spec;
use slowrx::sync::access as sync;

/// Columns of a fold.
pub const COLUMNS: usize = 700;
/// Longest list.
pub const LONGEST: usize = 65_536;

/// All vectors of windows, qualities and edges.
///
/// # Errors
/// Classes that were not reached.
pub fn vectors() -> Result<Records, String> {
    let mut records = Records::default();
    let mut rng = Rng::new(3);
    windows(&mut records, &mut rng)?;
    qualities(&mut records, &mut rng)?;
    edges(&mut records, &mut rng)?;
    Ok(records)
}

/// Form and payload of a list: as it is, or as pairs of count and how often,
/// whichever is shorter.
fn payload(counts: &[u32]) -> (u64, Vec<u8>) {
    let pairs: Vec<u32> = counts
        .chunk_by(|a, b| a == b)
        .flat_map(|run| [run[0], run.len() as u32])
        .collect();
    if pairs.len() < counts.len() {
        (1, words(&pairs))
    } else {
        (0, words(counts))
    }
}

/// Counts of a random shape.
pub fn list(rng: &mut Rng, n: usize) -> Vec<u32> {
    let top = rng.pick(&[1, 2, 3, 10, 256, 1_000_000, u64::from(u32::MAX) + 1]);
    match rng.below(5) {
        // all equal
        0 => vec![rng.below(top) as u32; n],
        // a pulse on a ground, anywhere in the ring
        1 => {
            let (ground, height) = (rng.below(top) as u32, rng.below(top) as u32);
            let (start, width) = (rng.index(n.max(1)), 1 + rng.index(n.max(1)));
            let inside = |i: usize| (i + n - start) % n < width;
            let pulse = (0..n).map(|i| if inside(i) { height } else { ground });
            pulse.collect()
        }
        // runs of equal counts
        2 => {
            let mut counts = Vec::new();
            while counts.len() < n {
                let length = (1 + rng.index(9)).min(n - counts.len());
                counts.extend(vec![rng.below(top) as u32; length]);
            }
            counts
        }
        // a pattern that repeats, so that many windows tie
        3 => {
            let pattern: Vec<u32> = (0..1 + rng.index(5))
                .map(|_| rng.below(top) as u32)
                .collect();
            (0..n).map(|i| pattern[i % pattern.len()]).collect()
        }
        _ => (0..n).map(|_| rng.below(top) as u32).collect(),
    }
}

/// A list of 65,536 counts that stays short when it is written as pairs.
pub fn long_list(rng: &mut Rng) -> Vec<u32> {
    let mut counts = Vec::new();
    let top = rng.pick(&[2, 256, 1_000_000, u64::from(u32::MAX) + 1]);
    while counts.len() < LONGEST {
        let length = (1 + rng.index(9_000)).min(LONGEST - counts.len());
        counts.extend(vec![rng.below(top) as u32; length]);
    }
    counts
}

/// Adds a pulse to the ring, of which this many windows from `start` on hold
/// `width` counts.
pub fn add_top(counts: &mut [u32], height: u32, start: usize, width: usize, windows: usize) {
    let n = counts.len();
    for i in start..start + width + windows - 1 {
        counts[i % n] += height;
    }
}

/// Lists and widths by how their windows tie: at each place of the ring, over its
/// end, behind lower ones that tie, before them, and everywhere.
fn tied() -> Vec<(Vec<u32>, usize)> {
    let mut lists = Vec::new();
    for (n, width) in [
        (4, 1),
        (4, 2),
        (12, 3),
        (40, 7),
        (COLUMNS, 8),
        (COLUMNS, 42),
    ] {
        for windows in [1, 2, 3, 9, 10, 11, 100] {
            if width + windows > n {
                continue;
            }
            let mut starts = vec![0, 1, n - width, n - windows, n - windows / 2 - 1, n - 1];
            starts.sort_unstable();
            starts.dedup();
            for start in starts {
                let mut counts = vec![0; n];
                add_top(&mut counts, 5, start, width, windows);
                lists.push((counts, width));
            }
        }
    }
    for (width, windows) in [
        (1, [2, 3, 1]),
        (3, [4, 1, 2]),
        (8, [9, 10, 11]),
        (8, [1, 2, 30]),
    ] {
        for heights in [[3, 4, 5], [5, 3, 4], [3, 5, 4], [5, 3, 5]] {
            let mut counts = vec![1; 120];
            for (i, (height, windows)) in heights.into_iter().zip(windows).enumerate() {
                add_top(&mut counts, height, 40 * i, width, windows);
            }
            lists.push((counts, width));
        }
    }
    for width in [1, COLUMNS, LONGEST - 1] {
        let mut counts = vec![7; LONGEST];
        lists.push((counts.clone(), width));
        counts[LONGEST - 1] += 1;
        lists.push((counts, width));
    }
    lists
}

fn windows(records: &mut Records, rng: &mut Rng) -> Result<(), String> {
    let mut tally = Tally::new("pulse: window", &[]);
    ring::announce_list(&mut tally, "");
    let mut put = |counts: &[u32], width: usize| {
        let (start, sum) = sync::best_pulse_window(counts, width);
        let number = sync::windows_with_largest(counts, width);
        let (form, bytes) = payload(counts);
        let answer = [start as u64, sum, number as u64];
        records.long(0, [width as u64, 0, form], answer, &bytes);
        ring::note_list(&mut tally, "", counts, width);
    };
    put(&[5, 1, 1, 5], 2);
    put(&[7, 7, 7, 7], 2);
    for n in 1..=40 {
        for _ in 0..40 {
            let counts = list(rng, n);
            let width = match rng.below(6) {
                0 => n,
                1 => 1,
                _ => 1 + rng.index(n),
            };
            put(&counts, width);
        }
    }
    for mode in 0..MODES {
        for _ in 0..4 {
            put(
                &list(rng, COLUMNS),
                sync::sync_pulse_columns(spec(mode), COLUMNS),
            );
        }
    }
    for _ in 0..10 {
        let counts = long_list(rng);
        let width = rng.pick(&[1, 2, 513, 6_857, LONGEST / 2, LONGEST - 1, LONGEST]);
        put(&counts, width);
    }
    put(&vec![u32::MAX; LONGEST], LONGEST);
    put(&vec![0; LONGEST], 3);
    for (counts, width) in tied() {
        put(&counts, width);
    }
    tally.report()
}

fn qualities(records: &mut Records, rng: &mut Rng) -> Result<(), String> {
    let mut tally = Tally::new(
        "pulse: quality",
        &[
            "no counts",
            "no lines",
            "one count",
            "65,536 counts",
            "65,536 lines",
            "held at 0, below",
            "0 exactly",
            "inside",
            "1 exactly",
            "held at 1, above",
            "0.6 and its neighbours",
            "the middle of an even number, upper and lower unlike",
            "peak not a whole number",
        ],
    );
    let mut put = |counts: &[u32], mode: usize, lines: usize| {
        let n = counts.len();
        let quality = sync::sync_quality(counts, spec(mode), lines);
        let (form, bytes) = payload(counts);
        let result = [bits32(quality), 0, 0];
        records.long(1, [mode as u64, lines as u64, form], result, &bytes);
        tally.note("no counts", n == 0);
        tally.note("no lines", lines == 0 && n > 0);
        if n == 0 || lines == 0 {
            return;
        }
        let width = sync::sync_pulse_columns(spec(mode), n);
        let (_, best) = sync::best_pulse_window(counts, width);
        let mut sorted = counts.to_vec();
        sorted.sort_unstable();
        let median = f64::from(sorted[n / 2]);
        let raw = (best as f64 / width as f64 - median) / lines as f64;
        assert_eq!(raw.clamp(0.0, 1.0) as f32, quality);
        tally.note("one count", n == 1);
        tally.note("65,536 counts", n == LONGEST);
        tally.note("65,536 lines", lines == 65_536);
        tally.note("held at 0, below", raw < 0.0);
        tally.note("0 exactly", raw == 0.0);
        tally.note("inside", raw > 0.0 && raw < 1.0);
        tally.note("1 exactly", raw == 1.0);
        tally.note("held at 1, above", raw > 1.0);
        tally.note("0.6 and its neighbours", (quality - 0.6).abs() < 1e-6);
        let unlike = n.is_multiple_of(2) && sorted[n / 2] != sorted[n / 2 - 1];
        tally.note(
            "the middle of an even number, upper and lower unlike",
            unlike,
        );
        tally.note("peak not a whole number", best % width as u64 != 0);
    };
    for n in 0..=40 {
        for _ in 0..24 {
            let counts = list(rng, n);
            let top = counts.iter().max().map_or(5, |&c| c.min(65_536) as usize);
            let lines = match rng.below(5) {
                0 => rng.index(4),
                1 => 65_536,
                2 => top,
                _ => rng.index(top * 2 + 2),
            };
            put(&counts, rng.index(MODES), lines);
        }
    }
    // a fold as a picture gives it: a pulse on most lines, and hits elsewhere
    for mode in 0..MODES {
        let width = sync::sync_pulse_columns(spec(mode), COLUMNS);
        for lines in [8, 14, 20, 30, 120, 240, 248, 256] {
            let start = rng.index(COLUMNS);
            let full = (rng.index(lines) + 1) as u32;
            let mut counts = vec![0; COLUMNS];
            for i in 0..width {
                counts[(start + i) % COLUMNS] = full;
            }
            for _ in 0..rng.index(60) {
                counts[rng.index(COLUMNS)] += 1;
            }
            put(&counts, mode, lines);
        }
        // 3 of 5 lines everywhere in the pulse: 0.6
        for lines in [10, 20, 30, 240] {
            let mut counts = vec![0; COLUMNS];
            counts[100..100 + width].fill(lines * 3 / 5);
            put(&counts, mode, lines as usize);
            counts[100] -= 1;
            put(&counts, mode, lines as usize);
        }
        for _ in 0..3 {
            put(&list(rng, COLUMNS), mode, 1 + rng.index(300));
        }
        put(&long_list(rng), mode, 1 + rng.index(65_536));
    }
    put(&vec![u32::MAX; LONGEST], 0, 65_536);
    tally.report()
}

fn edges(records: &mut Records, rng: &mut Rng) -> Result<(), String> {
    let mut tally = Tally::new(
        "pulse: edge",
        &[
            "one count alone, each column",
            "no edge, although counts",
            "no counts",
            "edge up to 349",
            "edge 350 kept",
            "edge after 350 taken back",
            "tie, the first wins",
            "window 692 would be best, not scanned",
            "the last window scanned is the only fall",
            "counts of 1,000,000",
        ],
    );
    let mut put = |counts: &[u32]| {
        let column = sync::falling_edge(counts);
        let (form, bytes) = payload(counts);
        records.long(2, [0, 0, form], [column as u64, 0, 0], &bytes);
        let at = |x: usize| {
            let half = |from: usize| {
                counts[from..from + 4]
                    .iter()
                    .map(|&c| i64::from(c))
                    .sum::<i64>()
            };
            half(x) - half(x + 4)
        };
        let best = (0..692).map(at).max().unwrap_or(0);
        let first = (0..692).find(|&x| best > 0 && at(x) == best);
        let edge = first.map_or(0, |x| x + 4);
        assert_eq!(column as usize, if edge > 350 { edge - 350 } else { edge });
        let some = counts.iter().filter(|&&c| c > 0).count();
        tally.note("one count alone, each column", some == 1);
        tally.note("no edge, although counts", edge == 0 && some > 0);
        tally.note("no counts", some == 0);
        tally.note("edge up to 349", edge > 0 && edge < 350);
        tally.note("edge 350 kept", edge == 350);
        tally.note("edge after 350 taken back", edge > 350);
        let again = first.is_some_and(|x| (x + 1..692).any(|later| at(later) == best));
        tally.note("tie, the first wins", again);
        tally.note(
            "window 692 would be best, not scanned",
            at(692) > best.max(0),
        );
        tally.note(
            "the last window scanned is the only fall",
            at(691) > 0 && (0..691).all(|x| at(x) <= 0),
        );
        tally.note("counts of 1,000,000", counts.contains(&1_000_000));
    };
    put(&[0; COLUMNS]);
    put(&[1_000_000; COLUMNS]);
    for x in 0..COLUMNS {
        let mut counts = [0; COLUMNS];
        counts[x] = rng.pick(&[1, 2, 240, 1_000_000]);
        put(&counts);
    }
    for _ in 0..300 {
        // pulses of any width, some of them alike, on a ground
        let mut counts = [rng.below(5) as u32; COLUMNS];
        let height = rng.pick(&[1, 240, 256, 999_000]);
        for _ in 0..1 + rng.index(4) {
            let (start, width) = (rng.index(COLUMNS), 1 + rng.index(60));
            counts[start..(start + width).min(COLUMNS)].fill(height);
        }
        put(&counts);
    }
    // a fall only in the last eight columns, and a rise alone
    for x in 690..COLUMNS {
        let mut counts = [0; COLUMNS];
        counts[..x].fill(7);
        put(&counts);
        counts = [0; COLUMNS];
        counts[x..].fill(7);
        put(&counts);
    }
    for _ in 0..150 {
        let mut counts = [0; COLUMNS];
        let (mut x, top) = (0, rng.pick(&[2, 4, 241, 1_000_001]));
        while x < COLUMNS {
            let end = (x + 1 + rng.index(24)).min(COLUMNS);
            counts[x..end].fill(rng.below(top) as u32);
            x = end;
        }
        put(&counts);
    }
    for _ in 0..40 {
        let top = rng.pick(&[2, 241, 1_000_001]);
        let mut counts = [0; COLUMNS];
        counts.fill_with(|| rng.below(top) as u32);
        put(&counts);
    }
    tally.report()
}
