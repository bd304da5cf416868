//! The modes' names and the lists of flags.

use drive::rng::Rng;
use slowrx::modespec::access::spec;

/// The place is the mode's number.
pub const MODES: [&str; 16] = [
    "PD 120",
    "PD 180",
    "PD 240",
    "Robot 24",
    "Robot 36",
    "Robot 72",
    "Robot 24 B/W",
    "Robot 12 B/W",
    "Robot 8 B/W",
    "Scottie 1",
    "Scottie 2",
    "Scottie DX",
    "Martin 1",
    "Martin 2",
    "Wraase SC-2 120",
    "Wraase SC-2 180",
];

/// The working rate.
pub const RATE_HZ: f64 = 11_025.0;
/// Flags in a second.
pub const FLAGS_A_SECOND: f64 = RATE_HZ / 4.0;

/// Numbers and names of the modes.
pub fn modes() -> impl Iterator<Item = (u8, &'static str)> {
    (0_u8..).zip(MODES)
}

/// Flags that are set with a chance of one in ten.
pub fn noise(n: usize, seed: u64) -> Vec<u8> {
    let mut rng = Rng::new(seed);
    (0..n).map(|_| u8::from(rng.below(10) == 0)).collect()
}

/// A pulse at the start of every `lines`-th line, lines being longer than they
/// should be by the factor `slower`.
#[allow(clippy::cast_precision_loss)]
pub fn pulses(mode: u8, n: usize, lines: f64, slower: f64) -> Vec<u8> {
    let row = spec(usize::from(mode));
    let period = lines * row.line_seconds * FLAGS_A_SECOND * slower;
    let pulse = row.sync_seconds * FLAGS_A_SECOND;
    let flag = |p| u8::from((p as f64) % period < pulse);
    (0..n).map(flag).collect()
}

/// The flags as the Rust takes them.
pub fn bools(flags: &[u8]) -> Vec<bool> {
    flags.iter().map(|f| *f == 1).collect()
}
