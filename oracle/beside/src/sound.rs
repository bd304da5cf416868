//! The spectrum's window, and the decision on a spectrum.

use crate::run::Run;
use drive::dsp::{powers, shifts, spectrum, PAIRS};
use drive::rng::Rng;
use drive::tally::Tally;
use recording::{Answer, Call, Length};
use rustfft::num_complex::Complex;
use slowrx::sync::access::Tracker;

/// The classes of these calls.
#[must_use]
pub fn tally() -> Tally {
    Tally::new(
        "fill, probe",
        &[
            "fill: no sound",
            "fill: wholly inside",
            "fill: before the sound",
            "fill: after the sound",
            "fill: both ends outside",
            "fill: wholly outside",
            "fill: centre 2^62",
            "probe: yes",
            "probe: no",
            "probe: tie of p_sync and 2 x p_raw, not zero",
            "probe: all zero",
            "probe: sync bin held at 1",
            "probe: sync bin held at 127",
            "probe: lower bin held at 1",
            "probe: upper bin held at 127",
            "probe: no bin",
            "probe: one bin",
            "probe: shift 0",
            "probe: numbers near the ends of f32",
        ],
    )
}

/// Some of each.
pub fn round(run: &mut Run, rng: &mut Rng) {
    for _ in 0..6 {
        fill(run, rng);
    }
    let shifts = shifts(rng);
    for _ in 0..12 {
        let shift = match rng.below(4) {
            0 => 0.0,
            1 => rng.pick(&[3_990.0, -2_230.0, 4_100.0, -2_290.0, 5_000.0, -5_000.0]),
            _ => rng.pick(&shifts),
        };
        probe(run, rng, shift);
    }
}

fn fill(run: &mut Run, rng: &mut Rng) {
    let n = rng.pick(&[0, 1, 7, 8, 15, 16, 17, 30, 400]);
    let centre = match rng.below(8) {
        0 => 1 << rng.pick(&[62, 53, 40, 32, 31, 16]),
        1 => (1 << rng.pick(&[62_u64, 53, 32, 31])) - 1,
        2 => 1 << 62,
        3 => rng.below(9),
        _ => rng.below(n as u64 + 20),
    };
    let mut sound: Vec<f32> = (0..n).map(|_| rng.sample()).collect();
    match rng.below(8) {
        0 => sound.fill_with(|| rng.pick(&[1.0, -1.0, 0.0, -0.0])),
        1 => sound.fill_with(|| rng.sample() * f32::MIN_POSITIVE),
        _ => {}
    }
    run.make(&Call::Fill {
        centre,
        buffer: Length::AsAsked,
        sound,
    });
    let tally = &mut run.classes.sound;
    let (n, early) = (n as u64, centre < 8);
    tally.note("fill: no sound", n == 0);
    tally.note("fill: wholly inside", !early && centre + 8 <= n);
    tally.note("fill: before the sound", early && centre + 8 <= n);
    let after = !early && centre + 8 > n && centre - 8 < n;
    tally.note("fill: after the sound", after);
    tally.note("fill: both ends outside", n > 0 && early && centre + 8 > n);
    tally.note("fill: wholly outside", n > 0 && centre >= n + 8);
    tally.note("fill: centre 2^62", centre == 1 << 62);
}

/// A spectrum around the bins of this shift.
fn pairs(rng: &mut Rng, (sync, low, high): (usize, usize, usize)) -> Vec<Complex<f32>> {
    match rng.below(12) {
        0 => vec![Complex::default(); PAIRS],
        // too large or too small for the squares of f32
        1 => {
            let size = rng.pick(&[f32::MAX, f32::MIN_POSITIVE, f32::from_bits(1)]);
            let mut pairs = vec![Complex { re: size, im: 0.0 }; PAIRS];
            pairs[rng.index(PAIRS)] = Complex::default();
            pairs
        }
        // one bin alone beside a weak sync bin
        2 => {
            let mut pairs = vec![Complex::default(); PAIRS];
            pairs[rng.index(PAIRS)].im = 1.5;
            pairs[27].re = 0.25;
            pairs
        }
        shape => spectrum(rng, shape % 4, sync, low, high),
    }
}

fn probe(run: &mut Run, rng: &mut Rng, shift: f64) {
    let bins = Tracker::new(shift).bins();
    let pairs = pairs(rng, bins);
    let numbers: Vec<f32> = pairs.iter().flat_map(|pair| [pair.re, pair.im]).collect();
    let odd = numbers
        .iter()
        .any(|x| x.abs() > 1e30 || (*x != 0.0 && x.abs() < 1e-30));
    let silent = numbers.iter().all(|&x| x == 0.0);
    let answer = run.make(&Call::Probe {
        shift,
        spectrum: numbers,
    });
    let (sync, low, high) = bins;
    let (lo, hi) = (low.max(1), high.min(127));
    let (p_sync, p_raw) = powers(&pairs, sync.clamp(1, 127), lo, hi);
    let tally = &mut run.classes.sound;
    tally.note("probe: yes", answer == Answer::Decided(true));
    tally.note("probe: no", answer == Answer::Decided(false));
    let tie = p_sync == 2.0 * p_raw && p_raw > 0.0;
    tally.note("probe: tie of p_sync and 2 x p_raw, not zero", tie);
    tally.note("probe: all zero", silent);
    tally.note("probe: sync bin held at 1", sync < 1);
    tally.note("probe: sync bin held at 127", sync > 127);
    tally.note("probe: lower bin held at 1", low < 1);
    tally.note("probe: upper bin held at 127", high > 127);
    tally.note("probe: no bin", hi < lo);
    tally.note("probe: one bin", hi == lo);
    tally.note("probe: shift 0", shift == 0.0);
    tally.note("probe: numbers near the ends of f32", odd);
}
