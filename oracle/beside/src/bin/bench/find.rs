//! `find_sync` on the first P flags at 11,025 Hz.

use crate::clock::{least, time, Times};
use crate::input::{bools, modes, noise, pulses, RATE_HZ};
use funnelivy::{Report, Work};
use slowrx::modespec::access::spec;
use slowrx::sync::access::{find_sync, image_probes, Scratch};
use std::hint::black_box;

/// P.
pub fn picture(mode: u8) -> usize {
    image_probes(spec(usize::from(mode)), RATE_HZ)
}

fn port(flags: &[u8], mode: u8, work: &mut Work) -> Report {
    let flags = black_box(flags);
    funnelivy::find_sync(flags, RATE_HZ, mode, &mut work.img, &mut work.votes)
        .expect("the arguments meet the conditions")
}

/// Times of both, after their answers were compared.
pub fn times(mode: u8, flags: &[u8], repeats: usize) -> Times {
    let (row, list) = (spec(usize::from(mode)), bools(flags));
    let (mut scratch, mut work) = (Scratch::default(), Work::new());
    let mut rust = || find_sync(black_box(&list), RATE_HZ, row, &mut scratch);
    let (first_rust, a) = time(&mut rust);
    let (first_port, b) = time(|| port(flags, mode, &mut work));
    assert_eq!(
        (a.rate, a.slant, a.skip, a.quality),
        (b.rate, b.slant, b.skip, b.quality),
        "the answers differ in mode {mode}"
    );
    let mut best = Times {
        rust: first_rust,
        port: first_port,
    };
    for _ in 1..repeats {
        best.rust = best.rust.min(least(1, || {
            black_box(rust());
        }));
        best.port = best.port.min(least(1, || {
            black_box(port(flags, mode, &mut work));
        }));
    }
    best
}

/// Flags that make a picture of noise.
pub fn noisy(mode: u8) -> Vec<u8> {
    noise(picture(mode), 7)
}

pub fn print(repeats: usize) {
    println!("`find_sync`, times in ms:\n");
    println!(
        "| mode | noise 10%: Rust | port | port / Rust | slanted: Rust | port | port / Rust | \
         all ones: Rust | port | port / Rust |"
    );
    println!("|---|---|---|---|---|---|---|---|---|---|");
    for (mode, name) in modes() {
        let n = picture(mode);
        let noise = times(mode, &noisy(mode), repeats);
        let slanted = times(mode, &pulses(mode, n, 1.0, 1.002), repeats);
        // Seconds in the Rust, so once is enough.
        let ones = times(mode, &vec![1; n], 1);
        let cells = [noise, slanted, ones].map(|t| t.cells()).join(" | ");
        println!("| {name} | {cells} |");
    }
}
