//! modespec_vectors: rows, sizes, pulse columns, P.

use crate::record::Records;
use crate::rng::Rng;
use crate::tally::Tally;
use slowrx::modespec::access as modespec;
use slowrx::modespec::ModeSpec;
use slowrx::sync::access as sync;
use slowrx::sync_start::access as sync_start;

/// Number of modes.
pub const MODES: usize = 16;

/// Largest number of columns.
const LARGEST: usize = 65_536;

/// Step ends up to here are also written one by one (op 7).
const SINGLY: usize = 1_400;

/// All vectors of the modes.
///
/// # Errors
/// Classes that were not reached.
pub fn vectors() -> Result<Records, String> {
    let mut records = Records::default();
    let mut tally = Tally::new(
        "modespec",
        &[
            "columns held at 1",
            "no columns give 1",
            "S / L x n exactly a half",
            "P exact, nothing to round up",
            "P rounded up",
        ],
    );
    let mut rng = Rng::new(2);
    for mode in 0..MODES {
        let spec = modespec::spec(mode);
        let m = mode as u64;
        for (field, value) in row(spec).into_iter().enumerate() {
            records.short(0, [m, field as u64, 0], value);
        }
        sizes(&mut records, m, spec);
        probes(&mut records, &mut tally, &mut rng, m, spec);
        columns(&mut records, &mut tally, m, spec);
        steps(&mut records, m, spec);
    }
    tally.report()?;
    Ok(records)
}

fn row(spec: ModeSpec) -> [u64; 8] {
    [
        u64::from(spec.line_pixels),
        u64::from(spec.image_lines),
        spec.line_seconds.to_bits(),
        spec.sync_seconds.to_bits(),
        spec.porch_seconds.to_bits(),
        spec.pixel_seconds.to_bits(),
        modespec::layout(spec),
        modespec::sync_position(spec),
    ]
}

fn sizes(records: &mut Records, m: u64, spec: ModeSpec) {
    let plain = [m, 0, 0];
    records.short(1, plain, u64::from(modespec::radio_lines(spec)));
    records.short(2, plain, modespec::skip_correction_seconds(spec).to_bits());
    records.short(3, plain, sync_start::window_lines(spec) as u64);
    records.short(4, plain, sync_start::window_probes(spec) as u64);
    records.short(6, plain, sync::line_width(spec) as u64);
    records.short(8, plain, sync_start::pulse_offset_seconds(spec).to_bits());
}

fn probes(records: &mut Records, tally: &mut Tally, rng: &mut Rng, m: u64, spec: ModeSpec) {
    let named = [
        8_000.0,
        11_025.0,
        44_100.0,
        48_000.0,
        8_001.0,
        11_024.0,
        11_026.0,
        22_050.0,
        16_000.0,
        9_999.5,
        31_415.926_535_897_9,
        47_999.999_999_999_99,
        8_000.000_000_000_001,
        12_345.678,
    ];
    let random = (0..24).map(|_| 8_000.0 + rng.unit() * 40_000.0);
    let whole = (0..24).map(|k| 8_000.0 + 1_739.0 * f64::from(k));
    let rates: Vec<f64> = named.into_iter().chain(random).chain(whole).collect();
    for rate in rates {
        let flags = sync::image_probes(spec, rate);
        let lines = f64::from(modespec::radio_lines(spec));
        let exact = lines * spec.line_seconds * rate / 4.0 == flags as f64;
        tally.note("P exact, nothing to round up", exact);
        tally.note("P rounded up", !exact);
        records.short(5, [m, 0, rate.to_bits()], flags as u64);
    }
}

/// Single numbers of columns: small ones, and the largest. The ends of steps
/// come with both neighbours.
fn columns(records: &mut Records, tally: &mut Tally, m: u64, spec: ModeSpec) {
    let of = |n: usize| sync::sync_pulse_columns(spec, n);
    let ratio = spec.sync_seconds / spec.line_seconds;
    let mut wanted = vec![0, 1, 2, 3, 699, 700, 701, LARGEST - 1, LARGEST];
    for n in 1..=LARGEST {
        let half = (ratio * n as f64).fract() == 0.5;
        tally.note("S / L x n exactly a half", half);
        if n <= SINGLY && (half || of(n) != of(n - 1)) {
            wanted.extend([n - 1, n, n + 1]);
        }
    }
    wanted.sort_unstable();
    wanted.dedup();
    for n in wanted.into_iter().filter(|&n| n <= LARGEST) {
        let raw = (ratio * n as f64).round();
        tally.note("columns held at 1", raw < 1.0);
        tally.note("no columns give 1", n == 0 && of(n) == 1);
        records.short(7, [m, n as u64, 0], of(n) as u64);
    }
}

/// Every step of 0 to 65,536 columns, three to a record: `b` is the first n
/// of the first step, `c` holds the last n of each (20 bits each, 0 for none),
/// the answer is the first step's; each further step answers one more.
fn steps(records: &mut Records, m: u64, spec: ModeSpec) {
    let of = |n: usize| sync::sync_pulse_columns(spec, n);
    let mut ends: Vec<usize> = (0..LARGEST).filter(|&n| of(n) != of(n + 1)).collect();
    ends.push(LARGEST);
    let mut first = 0;
    for three in ends.chunks(3) {
        let answer = of(first);
        let mut packed = 0;
        for (i, &end) in three.iter().enumerate() {
            assert_eq!(of(end), answer + i);
            packed |= (end as u64) << (20 * i);
        }
        records.short(9, [m, first as u64, packed], answer as u64);
        first = three[three.len() - 1] + 1;
    }
}
