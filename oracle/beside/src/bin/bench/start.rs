//! The start search: 1,000,000 flags without a start, evaluated each 64 flags.

use crate::clock::{time, Times};
use crate::input::{bools, modes, noise, pulses};
use funnelivy::{Session, Work};
use slowrx::modespec::access::spec;
use slowrx::sync_start::access::EvaluateAll;
use std::hint::black_box;
use std::time::Duration;

/// Flags of a search.
pub const FLAGS: usize = 1_000_000;
const BLOCK: usize = 64;

/// A whole session, from open to read: its evaluations.
fn port(flags: &[u8], mode: u8, work: &mut Work) -> u64 {
    let samples = [0.0; 4 * BLOCK];
    let mut session = Session::open(mode, 0, FLAGS, &[0.0; 4]).expect("a long store");
    for block in flags.chunks(BLOCK) {
        session
            .feed(block, &samples[..4 * block.len()], work)
            .expect("flags and samples meet the conditions");
    }
    session.read().expect("the store is full").evaluations
}

/// Times of both; each makes as many evaluations as the other.
pub fn times(mode: u8, flags: &[u8], repeats: usize) -> Times {
    let list = bools(flags);
    let mut all = EvaluateAll::new(spec(usize::from(mode)), &list);
    let mut work = Work::new();
    let mut best = Times {
        rust: Duration::MAX,
        port: Duration::MAX,
    };
    for _ in 0..repeats {
        let (rust, _) = time(|| black_box(all.run()));
        let (port, evaluations) = time(|| port(black_box(flags), mode, &mut work));
        assert_eq!(evaluations, all.evaluations() as u64, "mode {mode}");
        best.rust = best.rust.min(rust);
        best.port = best.port.min(port);
    }
    best
}

/// Flags that are noise throughout.
pub fn noisy() -> Vec<u8> {
    noise(FLAGS, 11)
}

pub fn print(repeats: usize) {
    println!("Start search, 1,000,000 flags, times in ms:\n");
    println!(
        "| mode | silence: Rust | port | port / Rust | noise 10%: Rust | port | port / Rust | \
         pulses: Rust | port | port / Rust |"
    );
    println!("|---|---|---|---|---|---|---|---|---|---|");
    let (silence, noise) = (vec![0; FLAGS], noisy());
    for (mode, name) in modes() {
        // On every second line, so that the quality stays below 0.6.
        let pulses = pulses(mode, FLAGS, 2.0, 1.0);
        let shapes = [&silence, &noise, &pulses];
        let cells = shapes.map(|flags| times(mode, flags, repeats).cells());
        println!("| {name} | {} |", cells.join(" | "));
    }
}
