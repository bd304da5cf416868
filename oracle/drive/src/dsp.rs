//! dsp_vectors: Goertzel powers, the window of the spectrum, the decision.

use crate::facts::TONE_SAMPLES;
use crate::record::{bits64, floats, Records};
use crate::rng::Rng;
use crate::tally::Tally;
use rustfft::num_complex::Complex;
use slowrx::dsp::access as dsp;
use slowrx::sync::access::Tracker;
use std::f64::consts::PI;

/// Samples in one second.
const RATE: f64 = 11_025.0;
/// Pairs of a spectrum that are read.
pub const PAIRS: usize = 129;
/// Samples of a window.
const WINDOW: usize = 16;

/// All vectors of sound.
///
/// # Errors
/// Classes that were not reached.
pub fn vectors() -> Result<Records, String> {
    let mut records = Records::default();
    let mut rng = Rng::new(5);
    tones(&mut records, &mut rng)?;
    windows(&mut records, &mut rng)?;
    decisions(&mut records, &mut rng)?;
    Ok(records)
}

/// The last two values of the filter.
fn filtered(samples: &[f32], coefficient: f64) -> (f64, f64) {
    let (mut last, mut before) = (0.0, 0.0);
    for &sample in samples {
        let next = f64::from(sample) + coefficient * last - before;
        before = last;
        last = next;
    }
    (last, before)
}

/// A tone of 49 samples.
#[must_use]
pub fn tone(hz: f64, amplitude: f64, phase: f64) -> Vec<f32> {
    let at = |i: usize| amplitude * (2.0 * PI * hz * i as f64 / RATE + phase).sin();
    (0..TONE_SAMPLES).map(|i| at(i) as f32).collect()
}

fn segment(rng: &mut Rng, shape: u64) -> Vec<f32> {
    let many = 0..TONE_SAMPLES;
    match shape {
        0 => many.map(|_| rng.sample()).collect(),
        1 => {
            let hz = rng.pick(&[1500.0, 2300.0, 1900.0, 1200.0, 1575.0, 2250.0]);
            tone(hz, rng.unit(), rng.unit() * 7.0)
        }
        2 => {
            let hz = rng.pick(&[1500.0, 2300.0]);
            let noise = rng.unit();
            let clean = tone(hz, 0.5, rng.unit() * 7.0);
            clean
                .iter()
                .map(|s| s * 0.9 + rng.sample() * noise as f32 * 0.1)
                .collect()
        }
        3 => {
            let half = 1 + rng.index(12);
            let sign = |i: usize| {
                if (i / half).is_multiple_of(2) {
                    1.0
                } else {
                    -1.0
                }
            };
            many.map(sign).collect()
        }
        4 => many
            .map(|_| f32::from_bits(rng.bits() as u32 & 0x807f_ffff))
            .collect(),
        5 => many
            .map(|_| rng.sample() * f32::MIN_POSITIVE * 4.0)
            .collect(),
        6 => many
            .map(|_| if rng.permille(60) { rng.sample() } else { 0.0 })
            .collect(),
        _ => many
            .map(|_| f32::from(rng.between(-32_768, 32_767) as i16) / 32_768.0)
            .collect(),
    }
}

fn tones(records: &mut Records, rng: &mut Rng) -> Result<(), String> {
    let mut tally = Tally::new(
        "dsp: Goertzel",
        &[
            "silence",
            "1,500 Hz stronger",
            "2,300 Hz stronger",
            "subnormal samples",
            "unlike the unfused form",
            "unlike with the inner square fused alone",
            "unlike with the outer square fused alone",
            "like the unfused form",
        ],
    );
    let mut put = |samples: &[f32]| {
        let mut powers = [0.0; 2];
        for (op, hz) in [(0, 1500.0), (1, 2300.0)] {
            let power = dsp::goertzel_power(samples, hz);
            records.long(op, [0; 3], [bits64(power), 0, 0], &floats(samples));
            powers[op as usize] = power;
            let coefficient = dsp::goertzel_coefficient(samples.len(), hz);
            let (a, b) = filtered(samples, coefficient);
            let cross = -coefficient * a * b;
            assert_eq!(power.to_bits(), b.mul_add(b, a.mul_add(a, cross)).to_bits());
            tally.note("unlike the unfused form", power != a * a + cross + b * b);
            tally.note("like the unfused form", power == a * a + cross + b * b);
            let inner = b * b + a.mul_add(a, cross);
            tally.note("unlike with the inner square fused alone", power != inner);
            let outer = b.mul_add(b, a * a + cross);
            tally.note("unlike with the outer square fused alone", power != outer);
        }
        tally.note("silence", samples.iter().all(|&s| s == 0.0));
        tally.note("1,500 Hz stronger", powers[0] > powers[1]);
        tally.note("2,300 Hz stronger", powers[0] < powers[1]);
        tally.note(
            "subnormal samples",
            samples.iter().any(|s| s.is_subnormal()),
        );
    };
    put(&[0.0; TONE_SAMPLES]);
    put(&[-0.0; TONE_SAMPLES]);
    put(&[1.0; TONE_SAMPLES]);
    for i in 0..TONE_SAMPLES {
        let mut samples = [0.0; TONE_SAMPLES];
        samples[i] = 1.0;
        put(&samples);
    }
    for i in 0..1_104 {
        put(&segment(rng, i % 8));
    }
    tally.report()
}

/// Op 2: the 16 real parts that the transform is given.
fn windows(records: &mut Records, rng: &mut Rng) -> Result<(), String> {
    let mut tally = Tally::new(
        "dsp: window",
        &[
            "no sound",
            "wholly inside",
            "before the sound",
            "after the sound",
            "both ends outside",
            "wholly outside",
            "centre 2^62",
        ],
    );
    let mut tracker = Tracker::new(0.0);
    rustfft::inject(&[]);
    let mut put = |sound: &[f32], centre: usize| {
        tracker.has_sync_at(sound, centre);
        let seen = rustfft::seen();
        assert_eq!(seen.len(), 256);
        let mut filled = seen.iter().enumerate();
        assert!(filled.all(|(i, c)| c.im.to_bits() == 0 && (i < WINDOW || c.re.to_bits() == 0)));
        let parts: Vec<f32> = seen[..WINDOW].iter().map(|c| c.re).collect();
        let payload = [floats(sound), floats(&parts)].concat();
        records.long(
            2,
            [centre as u64, 0, 0],
            [0, sound.len() as u64, 0],
            &payload,
        );
        let n = sound.len();
        tally.note("no sound", n == 0);
        tally.note("wholly inside", centre >= 8 && centre + 8 <= n);
        tally.note("before the sound", centre < 8 && centre + 8 <= n);
        tally.note(
            "after the sound",
            centre >= 8 && centre + 8 > n && centre - 8 < n,
        );
        tally.note("both ends outside", n > 0 && centre < 8 && centre + 8 > n);
        tally.note("wholly outside", n > 0 && centre >= n + 8);
        tally.note("centre 2^62", centre == 1 << 62);
    };
    for n in [0, 1, 7, 8, 15, 16, 17, 30] {
        for centre in 0..n + 20 {
            let mut sound: Vec<f32> = (0..n).map(|_| rng.sample()).collect();
            if rng.permille(100) {
                sound.fill_with(|| rng.pick(&[1.0, -1.0, 0.0, -0.0]));
            }
            if rng.permille(100) {
                sound.fill_with(|| rng.sample() * f32::MIN_POSITIVE);
            }
            put(&sound, centre);
        }
        let sound: Vec<f32> = (0..n).map(|_| rng.sample()).collect();
        for far in [62, 53, 40, 32, 31, 16] {
            put(&sound, 1 << far);
            put(&sound, (1 << far) - 1);
        }
    }
    let sound: Vec<f32> = (0..400).map(|_| rng.sample()).collect();
    for centre in [0, 4, 8, 12, 100, 391, 392, 393, 399, 400, 407, 408, 409] {
        put(&sound, centre);
    }
    tally.report()
}

/// Shifts at which a bin changes, with both neighbours, and beyond both ends.
pub fn shifts(rng: &mut Rng) -> Vec<f64> {
    let mut list = vec![0.0, -0.0, 5_000.0, -5_000.0, 100.0, -100.0, 43.0, -43.0];
    // one bin at either end, and none
    list.extend([3_990.0, -2_230.0, 4_100.0, -2_290.0]);
    for base in [1_200.0, 1_500.0, 2_300.0] {
        for bin in 0..=170 {
            let edge = f64::from(bin) * RATE / 256.0 - base;
            if edge.abs() <= 5_000.0 && rng.permille(220) {
                let near = |by: i64| f64::from_bits(edge.to_bits().wrapping_add_signed(by));
                list.extend([edge, near(1), near(-1)]);
            }
        }
    }
    for _ in 0..60 {
        list.push(rng.unit() * 10_000.0 - 5_000.0);
    }
    list.retain(|shift| shift.abs() <= 5_000.0);
    list
}

/// Op 3: `has_sync_at` on given spectra.
fn decisions(records: &mut Records, rng: &mut Rng) -> Result<(), String> {
    let mut tally = Tally::new(
        "dsp: decision",
        &[
            "yes",
            "no",
            "tie of p_sync and 2 x p_raw, not zero",
            "all zero",
            "sync bin held at 1",
            "sync bin held at 127",
            "lower bin held at 1",
            "upper bin held at 127",
            "no bin",
            "one bin",
            "20 bins (shift 0)",
        ],
    );
    let mut put = |spectrum: &[Complex<f32>], shift: f64| {
        let mut tracker = Tracker::new(shift);
        rustfft::inject(spectrum);
        let yes = tracker.has_sync_at(&[], 0);
        let numbers: Vec<f32> = spectrum.iter().flat_map(|c| [c.re, c.im]).collect();
        assert_eq!(numbers.len(), 2 * PAIRS);
        let answer = [u64::from(yes), 0, 0];
        records.long(3, [shift.to_bits(), 0, 0], answer, &floats(&numbers));
        let (sync, low, high) = tracker.bins();
        let (lo, hi) = (low.max(1), high.min(127));
        let (p_sync, p_raw) = powers(spectrum, sync.clamp(1, 127), lo, hi);
        assert_eq!(yes, p_sync > 2.0 * p_raw);
        tally.note("yes", yes);
        tally.note("no", !yes);
        let tie = p_sync == 2.0 * p_raw && p_raw > 0.0;
        tally.note("tie of p_sync and 2 x p_raw, not zero", tie);
        tally.note("all zero", numbers.iter().all(|&x| x == 0.0));
        tally.note("sync bin held at 1", sync < 1);
        tally.note("sync bin held at 127", sync > 127);
        tally.note("lower bin held at 1", low < 1);
        tally.note("upper bin held at 127", high > 127);
        tally.note("no bin", hi < lo);
        tally.note("one bin", hi == lo);
        tally.note(
            "20 bins (shift 0)",
            shift == 0.0 && (sync, lo, hi) == (27, 34, 53),
        );
    };
    for shift in shifts(rng) {
        let tracker = Tracker::new(shift);
        let (sync, low, high) = tracker.bins();
        let shape = rng.below(4);
        put(&spectrum(rng, shape, sync, low, high), shift);
    }
    for i in 0..160 {
        let tracker = Tracker::new(0.0);
        let (sync, low, high) = tracker.bins();
        put(&spectrum(rng, i % 4, sync, low, high), 0.0);
    }
    put(&[Complex::default(); PAIRS], 0.0);
    // each bin alone, at the bins' edges of shift 0
    for bin in [0, 1, 25, 26, 27, 28, 29, 33, 34, 35, 52, 53, 54, 127, 128] {
        let mut alone = [Complex::default(); PAIRS];
        alone[bin].im = 1.5;
        alone[27].re = 0.25;
        put(&alone, 0.0);
    }
    // a spectrum too large and one too small for f32's squares
    for size in [f32::MAX, f32::MIN_POSITIVE, f32::from_bits(1)] {
        put(
            &[Complex {
                re: size,
                im: -size,
            }; PAIRS],
            0.0,
        );
        let mut strong = [Complex { re: size, im: 0.0 }; PAIRS];
        strong[40] = Complex::default();
        put(&strong, 0.0);
    }
    tally.report()
}

/// Both sides of the decision, in the Rust's order of steps.
#[must_use]
pub fn powers(spectrum: &[Complex<f32>], sync: usize, lo: usize, hi: usize) -> (f64, f64) {
    let power = |k: usize| {
        let (re, im) = (f64::from(spectrum[k].re), f64::from(spectrum[k].im));
        re * re + im * im
    };
    let mut raw = 0.0;
    if hi >= lo {
        for k in lo..=hi {
            raw += power(k);
        }
        raw /= (hi - lo).max(1) as f64;
    }
    let mut of_sync = 0.0;
    for (k, weight) in [(sync - 1, 0.5), (sync, 1.0), (sync + 1, 0.5)] {
        of_sync += power(k) * weight;
    }
    (of_sync / 2.0, raw)
}

/// A spectrum of one of four shapes around the bins given.
pub fn spectrum(
    rng: &mut Rng,
    shape: u64,
    sync: usize,
    low: usize,
    high: usize,
) -> Vec<Complex<f32>> {
    let mut pairs = vec![Complex::default(); PAIRS];
    let (lo, hi) = (low.max(1), high.min(127));
    let bin = sync.clamp(1, 127);
    match shape {
        // noise, and a sync tone of about the deciding size
        0 => {
            pairs.fill_with(|| Complex {
                re: rng.sample(),
                im: rng.sample(),
            });
            for pair in &mut pairs[bin - 1..=bin + 1] {
                pair.re *= (1.0 + rng.unit() * 2.0) as f32;
                pair.im *= (1.0 + rng.unit() * 2.0) as f32;
            }
        }
        // a tie: 2 x (sum of k ones / divisor) beside p_sync = 4^j x 1 / 2
        1 if hi > lo && (bin + 1 < lo || bin > hi + 1) => {
            let divisor = hi - lo;
            let exact = divisor.is_power_of_two();
            let ones = if exact { divisor / 2 } else { divisor };
            for pair in pairs[lo..=hi].iter_mut().take(ones) {
                *pair = if rng.permille(500) {
                    Complex { re: 1.0, im: 0.0 }
                } else {
                    Complex { re: 0.0, im: -1.0 }
                };
            }
            // p_raw is 1 or a half, so p_sync must be 2 or 1
            let total = if exact { 2.0 } else { 4.0 };
            let root = f64::sqrt(total);
            pairs[bin].re = root as f32;
            if root.fract() != 0.0 {
                pairs[bin] = Complex { re: 1.0, im: 1.0 };
            }
            if rng.permille(300) {
                pairs[bin].im = f32::from_bits(pairs[bin].im.to_bits() + 1);
            }
        }
        // one bin beside the band and the sync bin
        2 => {
            let other = rng.pick(&[lo, hi, lo.saturating_sub(1), (hi + 1).min(128)]);
            pairs[other.min(PAIRS - 1)].re = rng.sample();
            pairs[bin].im = rng.sample();
        }
        _ => pairs.fill_with(|| Complex {
            re: rng.sample(),
            im: rng.sample(),
        }),
    }
    pairs
}
