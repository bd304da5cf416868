//! What the single calls refuse. The Rust refuses nothing: these numbers are
//! document 01's table, the lowest that applies, 0 for none. What open and
//! feed refuse stands in `live` and in `plain`.

use crate::plain::{unsound, IMG, MOST_FLAGS, VOTES};

/// Most counts, columns and lines.
const MOST: u64 = 65_536;

/// The first number whose condition holds, 0 for none.
fn lowest(conditions: &[(bool, u64)]) -> u64 {
    let first = conditions.iter().find(|(applies, _)| *applies);
    first.map_or(0, |(_, number)| *number)
}

/// `sync_pulse_columns`.
#[must_use]
pub fn columns(mode: u64, n: u64) -> u64 {
    lowest(&[(mode > 15, 1), (n > MOST, 9)])
}

/// `best_pulse_window`.
#[must_use]
pub fn window(counts: &[u32], width: u64) -> u64 {
    let n = counts.len() as u64;
    let outside = n == 0 || n > MOST || width == 0 || width > n;
    lowest(&[(outside, 9)])
}

/// `sync_quality`.
#[must_use]
pub fn quality(counts: &[u32], mode: u64, lines: u64) -> u64 {
    let outside = counts.len() as u64 > MOST || lines > MOST;
    lowest(&[(mode > 15, 1), (outside, 9)])
}

/// `falling_edge_from_x_acc`.
#[must_use]
pub fn edge(counts: &[u32]) -> u64 {
    let outside = counts.len() != 700 || counts.iter().any(|&count| count > 1_000_000);
    lowest(&[(outside, 9)])
}

/// `find_sync`; `memory` has the lengths of the work memory.
#[must_use]
pub fn find(mode: u64, rate: f64, memory: [u64; 2], flags: &[u8]) -> u64 {
    lowest(&[
        (mode > 15, 1),
        // also for NaN
        (!(8_000.0..=48_000.0).contains(&rate), 2),
        (memory[0] < IMG as u64 || memory[1] < VOTES as u64, 5),
        (flags.len() > MOST_FLAGS, 6),
        (flags.iter().any(|&flag| flag > 1), 7),
    ])
}

/// The spectrum's window; `buffer` is its length.
#[must_use]
pub fn fill(centre: u64, buffer: u64, sound: &[f32]) -> u64 {
    lowest(&[
        (centre > 1 << 62, 4),
        (buffer != 512, 5),
        (unsound(sound), 8),
    ])
}

/// `has_sync_at` on a spectrum.
#[must_use]
pub fn probe(shift: f64, spectrum: &[f32]) -> u64 {
    lowest(&[
        // also for NaN
        (!(-5_000.0..=5_000.0).contains(&shift), 3),
        (spectrum.len() != 258, 6),
        (spectrum.iter().any(|number| !number.is_finite()), 8),
    ])
}
