//! `falling_edge_from_x_acc` alone, on 700 counts.

use crate::clock::{each, time, Times};
use drive::rng::Rng;
use slowrx::sync::access::falling_edge;
use std::hint::black_box;
use std::time::Duration;

/// Calls of a measurement: one is too short for the clock.
const CALLS: usize = 20_000;

/// Counts as a fold of 240 lines leaves them.
fn shapes() -> [(&'static str, Vec<u32>); 3] {
    let mut rng = Rng::new(13);
    let noise = (0..700).map(|_| rng.below(49) as u32).collect();
    let mut pulse = vec![0; 700];
    pulse[100..140].fill(240);
    [
        ("noise", noise),
        ("one pulse", pulse),
        ("all 0", vec![0; 700]),
    ]
}

/// The time of so many calls, and the last answer.
fn calls(mut call: impl FnMut() -> u64) -> (Duration, u64) {
    time(|| {
        let mut answer = 0;
        for _ in 0..CALLS {
            answer = black_box(call());
        }
        answer
    })
}

/// Least times of both, which take turns and answer alike.
fn times(counts: &[u32], repeats: usize) -> Times {
    let mut best = Times {
        rust: Duration::MAX,
        port: Duration::MAX,
    };
    for _ in 0..repeats {
        let (rust, a) = calls(|| falling_edge(black_box(counts)) as u64);
        let (port, b) = calls(|| funnelivy::falling_edge(black_box(counts)).expect("700 counts"));
        assert_eq!(a, b, "the answers differ");
        best.rust = best.rust.min(rust);
        best.port = best.port.min(port);
    }
    best
}

pub fn print(repeats: usize) {
    println!("`falling_edge_from_x_acc`, ns a call:\n");
    println!("| counts | Rust | port | port / Rust |");
    println!("|---|---|---|---|");
    for (name, counts) in shapes() {
        let best = times(&counts, repeats);
        let (rust, port) = (each(best.rust, CALLS), each(best.port, CALLS));
        println!("| {name} | {rust:.0} | {port:.0} | {:.3} |", port / rust);
    }
}
