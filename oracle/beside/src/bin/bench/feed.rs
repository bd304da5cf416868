//! Feed in blocks, and with the probe calls beside the Rust's `process`.

use crate::clock::{each, least};
use crate::find::picture;
use crate::input::{modes, noise};
use drive::search::inject;
use funnelivy::{has_sync, sync_window, Session, Work};
use slowrx::modespec::access::spec;
use slowrx::sync_start::access::{window_probes, Detector};
use std::hint::black_box;
use std::time::Duration;

/// Flags of a measurement.
const FLAGS: usize = 200_000;

/// A session that does not end within the flags.
fn open(mode: u8) -> Session {
    let shortest = window_probes(spec(usize::from(mode))) + picture(mode);
    Session::open(mode, 0, shortest.max(FLAGS + 1), &[0.0; 4]).expect("a long store")
}

fn take(session: &mut Session, flags: &[u8], samples: &[f32], work: &mut Work) {
    session
        .feed(flags, &samples[..4 * flags.len()], work)
        .expect("flags and samples meet the conditions");
}

/// The least time of a session that is fed in blocks.
fn fed(mode: u8, flags: &[u8], block: usize, repeats: usize) -> Duration {
    let samples = vec![0.0; 4 * block];
    let mut work = Work::new();
    let mut once = || {
        let mut session = open(mode);
        least(1, || {
            for piece in flags.chunks(block) {
                take(&mut session, piece, &samples, &mut work);
            }
        })
    };
    (0..repeats).map(|_| once()).min().expect("a repeat")
}

/// The spectrum in which the sync tone is, or is not.
fn spectra() -> [[f32; 258]; 2] {
    let mut tone = [0.0; 258];
    tone[2 * 27] = 1.0;
    [[0.0; 258], tone]
}

/// Window, decision and feed for each flag.
fn probed(mode: u8, flags: &[u8], repeats: usize) -> Duration {
    let (spectra, near) = (spectra(), [0.25; 16]);
    let (mut buffer, mut work) = ([0.0; 512], Work::new());
    let mut once = || {
        let mut session = open(mode);
        least(1, || {
            for flag in flags {
                sync_window(black_box(&near), 8, &mut buffer).expect("a sound within its limits");
                black_box(&mut buffer);
                let spectrum = black_box(&spectra[usize::from(*flag)]);
                let sync = has_sync(spectrum, 0.0).expect("a finite spectrum");
                take(&mut session, &[u8::from(sync)], &near, &mut work);
            }
        })
    };
    (0..repeats).map(|_| once()).min().expect("a repeat")
}

/// The Rust's `process`, 4 samples a time, on the same flags.
fn processed(mode: u8, flags: &[u8], repeats: usize) -> Duration {
    let samples = [0.25; 4];
    let once = || {
        let mut detector = Detector::new(spec(usize::from(mode)));
        detector.process(&samples, 4);
        least(1, || {
            for (p, flag) in (0_u64..).zip(flags) {
                inject(*flag == 1);
                detector.process(black_box(&samples), 4 * p + 8);
            }
        })
    };
    (0..repeats).map(|_| once()).min().expect("a repeat")
}

pub fn print(repeats: usize) {
    println!("Feed of noise 10%, ns a flag:\n");
    println!(
        "| mode | blocks of 1 | of 64 | of 4,096 | window, decision and feed of 1 | \
         Rust's `process` of 4 samples | port / Rust |"
    );
    println!("|---|---|---|---|---|---|---|");
    let flags = noise(FLAGS, 11);
    for (mode, name) in modes() {
        let blocks = [1, 64, 4_096].map(|b| each(fed(mode, &flags, b, repeats), FLAGS));
        let port = each(probed(mode, &flags, repeats), FLAGS);
        let rust = each(processed(mode, &flags, repeats), FLAGS);
        println!(
            "| {name} | {:.0} | {:.0} | {:.0} | {port:.0} | {rust:.0} | {:.3} |",
            blocks[0],
            blocks[1],
            blocks[2],
            port / rust
        );
    }
}
