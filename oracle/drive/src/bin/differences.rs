//! `differences` prints the calls where the port answers otherwise than the
//! Rust on purpose, each below a comment with the Rust's answer. With the
//! port's answers they are host/recordings/differences.txt, and
//! docs/DIFFERENCES.md says why.

use drive::plain::shortest;
use drive::scene::{Sound, RATE};
use drive::search::{inject, taken_at};
use drive::train::Train;
use slowrx::modespec::access::spec;
use slowrx::sync::access::{self as sync, Scratch, Tracker};
use slowrx::sync_start::access::Detector;
use std::f64::consts::PI;
use std::panic::catch_unwind;

/// Robot 36, whose start depends on samples.
const ROBOT_36: usize = 4;
/// A mode whose starts lie half-way between samples at some columns.
const ROBOT_24_BW: usize = 6;
/// Samples of a parity tone.
const TONE: usize = 49;

fn main() {
    std::panic::set_hook(Box::new(|_| ()));
    println!("funnelivy recording 1");
    counts();
    rates();
    sound();
    not_a_number();
    blocks();
    anchors();
}

/// A call and the Rust's answer, or that it panics.
fn line(call: &str, answer: impl FnOnce() -> String + std::panic::UnwindSafe) {
    let answer = catch_unwind(answer).unwrap_or_else(|_| "panics".to_string());
    println!("# the Rust: {answer}\n{call}");
}

/// Beyond the limits of the fold's callers.
fn counts() {
    line("columns 0 65537", || {
        sync::sync_pulse_columns(spec(0), 65_537).to_string()
    });
    let window = |counts: &[u32], width| {
        let (start, sum) = sync::best_pulse_window(counts, width);
        format!("{start} {sum}")
    };
    line("window 1 -", || window(&[], 1));
    line("window 0 5", || window(&[5], 0));
    line("window 2 5", || window(&[5], 2));
    line("window 1 65537*5", || window(&vec![5; 65_537], 1));
    let quality = |counts: &[u32], lines| {
        let quality = sync::sync_quality(counts, spec(0), lines);
        format!("{:08x}", quality.to_bits())
    };
    line("quality 0 65537 65537,99*0", || {
        let mut counts = vec![0; 100];
        counts[0] = 65_537;
        quality(&counts, 65_537)
    });
    line("quality 0 1 65537*0", || quality(&vec![0; 65_537], 1));
    let edge = |counts: &[u32]| sync::falling_edge(counts).to_string();
    line("edge 1,698*0", || {
        let mut counts = vec![0; 699];
        counts[0] = 1;
        edge(&counts)
    });
    line("edge 3*0,1000001,696*0", || edge(&one_count(3, 1_000_001)));
    line("edge 3*0,2147483648,696*0", || edge(&one_count(3, 1 << 31)));
}

/// 700 counts, one of them not 0.
fn one_count(column: usize, count: u32) -> Vec<u32> {
    let mut counts = vec![0; 700];
    counts[column] = count;
    counts
}

/// Rates outside 8,000 to 48,000 Hz, and not numbers.
fn rates() {
    for rate in [7999.0, 48_001.0, f64::INFINITY, f64::NAN] {
        line(
            &format!("find 4 {:016x} * * -", rate.to_bits()),
            move || {
                let found = sync::find_sync(&[], rate, spec(ROBOT_36), &mut Scratch::default());
                let slant = found
                    .slant
                    .map_or("none".to_string(), |a| format!("{:016x}", a.to_bits()));
                format!(
                    "{:016x} {slant} {} {:08x}",
                    found.rate.to_bits(),
                    found.skip,
                    found.quality.to_bits()
                )
            },
        );
    }
}

/// Sound, spectrum, shift and centre beyond the limits.
fn sound() {
    for sample in [f32::NAN, 1.000_000_1, f32::INFINITY] {
        line(&format!("fill 0 * {:08x}", sample.to_bits()), move || {
            inject(false);
            Tracker::new(0.0).has_sync_at(&[sample], 0);
            let middle = rustfft::seen()[8].re;
            format!("place 16 is {:08x}", middle.to_bits())
        });
    }
    line("fill 4611686018427387905 * -", || {
        inject(false);
        Tracker::new(0.0).has_sync_at(&[], (1 << 62) + 1);
        let zero = rustfft::seen().iter().all(|pair| pair.re == 0.0);
        format!("all places 0: {zero}")
    });
    for shift in [5001.0, f64::NAN, f64::INFINITY] {
        let bits = shift.to_bits();
        line(&format!("probe {bits:016x} 258*00000000"), move || {
            inject(false);
            yes(Tracker::new(shift).has_sync_at(&[], 0))
        });
    }
    line(
        "probe 0000000000000000 54*00000000,7f800000,203*00000000",
        || {
            let mut spectrum = [rustfft::num_complex::Complex::default(); 28];
            spectrum[27].re = f32::INFINITY;
            rustfft::inject(&spectrum);
            yes(Tracker::new(0.0).has_sync_at(&[], 0))
        },
    );
}

fn yes(answer: bool) -> String {
    if answer { "yes" } else { "no" }.to_string()
}

/// A train of pulses from flag `lead_in` on, without end.
fn train(mode: usize, lead_in: usize, flags: usize) -> Sound {
    let mut sound = Sound::silent(flags);
    let mut pulses = Train::of(spec(mode), RATE);
    pulses.first = lead_in as f64 / pulses.flags_per_second;
    pulses.draw(
        spec(mode),
        &mut sound.flags,
        0,
        &mut drive::rng::Rng::new(1),
    );
    sound
}

/// The start that the Rust finds, fed 4 samples a time but for the last
/// call, which brings `last` flags at once. They must be equal.
fn start(mode: usize, sound: &Sound, anchor: u64, last: usize) -> Option<u64> {
    let due = taken_at(mode, 2);
    let mut detector = Detector::new(spec(mode));
    detector.process(&sound.samples[..4], anchor + 4);
    for p in 0..due - 1 {
        inject(sound.flags[p]);
        let end = 4 * p + 8;
        detector.process(&sound.samples[end - 4..end], anchor + end as u64);
    }
    inject(sound.flags[due - 1]);
    let piece = &sound.samples[4 * due..4 * (due + last)];
    detector.process(piece, anchor + 4 * (due + last) as u64);
    detector.start().map(|start| start.position)
}

/// Where the parity tone of line `k` begins, the start being `start`.
fn tone_at(start: u64, k: u32) -> usize {
    let row = spec(ROBOT_36);
    let separator =
        row.sync_seconds + row.porch_seconds + 2.0 * f64::from(row.line_pixels) * row.pixel_seconds;
    let line_start = start as f64 + 2.0 * row.sync_seconds * RATE;
    let at = line_start + (f64::from(k) * row.line_seconds + separator) * RATE;
    at.round() as usize
}

/// Writes a parity tone.
fn tone(sound: &mut Sound, from: usize, hz: f64) {
    for i in 0..TONE {
        sound.samples[from + i] = (2.0 * PI * hz * i as f64 / RATE).sin() as f32;
    }
}

/// One sample that is not a number takes the tone's vote away.
fn not_a_number() {
    let mut sound = train(ROBOT_36, 700, taken_at(ROBOT_36, 2) + 64);
    let even = start(ROBOT_36, &sound, 0, 1).expect("a start");
    tone(&mut sound, tone_at(even, 0), 2300.0);
    let odd = start(ROBOT_36, &sound, 0, 1);
    sound.samples[tone_at(even, 1)] = f32::NAN;
    let unheard = start(ROBOT_36, &sound, 0, 1);
    println!("# Robot 36, pulses from flag 700 on, an odd line's tone in line 0.");
    println!("# the Rust: start {}", shown(odd));
    println!(
        "# the Rust: start {}, one sample of line 1 not a number",
        shown(unheard)
    );
    session(ROBOT_36, 0, &sound);
}

/// Robot 36: a tone that ends just after the samples known at the evaluation.
fn blocks() {
    let due = taken_at(ROBOT_36, 2);
    let known = 4 * (due + 1);
    for lead_in in 60..300 {
        let sound = train(ROBOT_36, lead_in, due + 64);
        let Some(plain) = start(ROBOT_36, &sound, 0, 1) else {
            continue;
        };
        for k in 0..14 {
            let from = tone_at(plain, k);
            let behind = (from + TONE).saturating_sub(known);
            if (1..=4).contains(&behind) && !sound.flags[due - 1] && !sound.flags[due] {
                heard_later(lead_in, sound, from, k % 2 == 0);
                return;
            }
        }
    }
    panic!("no train has such a tone");
}

/// The two starts, with the block that brings the tone and without it.
fn heard_later(lead_in: usize, mut sound: Sound, from: usize, even: bool) {
    let hz = if even { 2300.0 } else { 1500.0 };
    tone(&mut sound, from, hz);
    let [four, eight] = [1, 2].map(|last| start(ROBOT_36, &sound, 0, last));
    println!("# Robot 36, pulses from flag {lead_in} on, a tone of {hz} Hz from sample {from} on.");
    println!("# the Rust: start {}, 4 samples a call", shown(four));
    println!(
        "# the Rust: start {}, the last call of 8 samples",
        shown(eight)
    );
    session(ROBOT_36, 0, &sound);
}

fn shown(start: Option<u64>) -> String {
    start.map_or("none".to_string(), |s| s.to_string())
}

/// The calls of a session that hears this, and silence after it.
fn session(mode: usize, anchor: u64, sound: &Sound) {
    let rest = shortest(mode) - sound.flags.len();
    let bits = |s: &f32| format!("{:08x}", s.to_bits());
    let flags = runs(sound.flags.iter().map(|&f| u8::from(f).to_string()));
    let samples = runs(sound.samples[4..].iter().map(bits));
    println!("open {mode} {anchor} * * 4*00000000");
    println!(
        "feed * * * * {flags},{rest}*0 {samples},{}*00000000",
        4 * rest
    );
    println!("read");
}

/// A list with repeats, as recordings have it.
fn runs(words: impl Iterator<Item = String>) -> String {
    let mut list: Vec<(usize, String)> = Vec::new();
    for word in words {
        match list.last_mut() {
            Some((n, last)) if *last == word => *n += 1,
            _ => list.push((1, word)),
        }
    }
    let entry = |(n, word): (usize, String)| match n {
        1 => word,
        n => format!("{n}*{word}"),
    };
    list.into_iter().map(entry).collect::<Vec<_>>().join(",")
}

/// The smallest anchor known at which start less anchor is another one. The
/// start lies half-way between two samples, and from this anchor on the sum
/// rounds to the other side.
fn anchors() {
    let sound = train(ROBOT_24_BW, 285, taken_at(ROBOT_24_BW, 2) + 64);
    println!("# Robot 24 BW, pulses from flag 285 on.");
    for anchor in [0, 40] {
        let found = start(ROBOT_24_BW, &sound, anchor, 1);
        println!("# the Rust: start {}, anchor {anchor}", shown(found));
    }
    session(ROBOT_24_BW, 40, &sound);
}
