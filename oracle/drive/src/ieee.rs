//! ieee_vectors: Rust's float operations that the port builds itself.

use crate::fused;
use crate::record::{bits32, bits64, Records};
use crate::rng::Rng;
use crate::tally::Tally;

const TWO_52: f64 = 4_503_599_627_370_496.0;
const TWO_53: f64 = 2.0 * TWO_52;
const TWO_63: f64 = 9_223_372_036_854_775_808.0;
const TWO_64: f64 = 2.0 * TWO_63;
/// The bits of a fraction field.
pub const FRACTION: u64 = (1 << 52) - 1;

/// All vectors of the float operations.
///
/// # Errors
/// Classes that were not reached.
pub fn vectors() -> Result<Records, String> {
    let mut records = Records::default();
    let mut rng = Rng::new(1);
    unary(&mut records, &mut rng)?;
    pairs(&mut records, &mut rng)?;
    widen(&mut records, &mut rng)?;
    fused::vectors(&mut records, &mut rng)?;
    Ok(records)
}

/// The float that is `by` steps further along the order of bits.
#[must_use]
pub fn stepped(x: f64, by: i64) -> f64 {
    f64::from_bits(x.to_bits().wrapping_add_signed(by))
}

/// Not a number, in four forms.
#[must_use]
pub fn nans() -> [f64; 4] {
    [
        0x7ff8_0000_0000_0000,
        0xfff8_0000_0000_0000,
        0x7ff0_0000_0000_0001,
        0xffff_ffff_ffff_ffff,
    ]
    .map(f64::from_bits)
}

/// Magnitudes at which some operation changes over.
fn edges() -> Vec<f64> {
    let mut list = vec![0.0, f64::INFINITY, f64::MAX, f64::MIN_POSITIVE];
    list.extend([1, 2, 3, FRACTION].map(f64::from_bits));
    for k in 0..12 {
        list.extend([f64::from(k), f64::from(k) + 0.5]);
    }
    list.extend([220.5, 98.5, 828.5, 4095.5, 65_535.5, 4_294_967_295.5]);
    list.extend([TWO_52, TWO_53, TWO_63, TWO_64, TWO_52 / 2.0, TWO_63 / 2.0]);
    list.extend([TWO_52 - 0.5, TWO_52 - 1.0, TWO_52 / 2.0 - 0.5, TWO_53 - 1.0]);
    for k in [31, 32, 33, 51, 52, 53, 54, 61, 62, 63, 64, 65, 100] {
        list.push(2_f64.powi(k));
    }
    let narrow_ends = [
        f64::from(f32::MAX),
        f64::from(f32::MIN_POSITIVE),
        f64::from(f32::from_bits(1)),
        // half a step above the largest f32, and half the smallest one
        f64::from(f32::MAX) + 2_f64.powi(103),
        2_f64.powi(-150),
        2_f64.powi(-126) - 2_f64.powi(-150),
        1.5 * 2_f64.powi(-149),
        2.5 * 2_f64.powi(-149),
    ];
    list.extend(narrow_ends);
    list
}

/// A float halfway between two neighbours of f32.
fn midway(rng: &mut Rng) -> f64 {
    let low = f32::from_bits((rng.bits() as u32) & 0x7f7f_ffff);
    let high = f32::from_bits(low.to_bits() + 1);
    if high.is_infinite() {
        return f64::from(f32::MAX) + 2_f64.powi(103);
    }
    (f64::from(low) + f64::from(high)) / 2.0
}

/// Operands of the operations on one float.
fn single(rng: &mut Rng) -> Vec<f64> {
    let mut list = Vec::new();
    for x in edges() {
        for by in [-1, 0, 1] {
            let y = stepped(x, by);
            if y >= 0.0 {
                list.push(y);
            }
        }
    }
    for _ in 0..50 {
        let x = midway(rng);
        list.extend([x, stepped(x, 1), stepped(x, -1)]);
    }
    for _ in 0..50 {
        let bits = 1 + rng.below(51);
        let k = rng.below(1 << bits) as f64;
        list.extend([k + 0.5, stepped(k + 0.5, 1), stepped(k + 0.5, -1)]);
    }
    for _ in 0..100 {
        let exponent = rng.between(1023 - 3, 1023 + 66) as u64;
        list.push(f64::from_bits(exponent << 52 | rng.bits() & FRACTION));
    }
    for _ in 0..60 {
        let exponent = rng.between(1023 - 151, 1023 + 129) as u64;
        list.push(f64::from_bits(exponent << 52 | rng.bits() & FRACTION));
    }
    for _ in 0..40 {
        list.push(f64::from_bits(rng.bits() & !(1 << 63)));
    }
    let mut seen = std::collections::HashSet::new();
    list.retain(|x| seen.insert(x.to_bits()));
    let negative: Vec<f64> = list.iter().map(|x| -x).collect();
    list.extend(negative);
    list.extend(nans());
    list
}

/// Ops 0 to 4 and 7.
fn unary(records: &mut Records, rng: &mut Rng) -> Result<(), String> {
    let mut tally = Tally::new(
        "ieee: casts and roundings",
        &[
            "nan",
            "infinite",
            "+0",
            "-0",
            "subnormal",
            "half above zero",
            "half below zero",
            "next to a half",
            "to_u64 held at 0",
            "to_u64 held at 2^64 - 1",
            "to_u64 inside, fraction dropped",
            "to_i64 held at -2^63",
            "to_i64 held at 2^63 - 1",
            "to_i64 inside, below zero",
            "round up to the next power of two",
            "round to -0",
            "ceil up",
            "ceil held at 2^64 - 1",
            "to_f32 exact",
            "to_f32 inexact",
            "to_f32 tie to even, down",
            "to_f32 tie to even, up",
            "to_f32 overflow",
            "to_f32 subnormal",
            "to_f32 to zero",
            "to_f32 up to the smallest normal",
        ],
    );
    for x in single(rng) {
        let a = [x.to_bits(), 0, 0];
        records.short(0, a, x as u64);
        records.short(1, a, x as i64 as u64);
        records.short(2, a, bits64(x.round()));
        records.short(3, a, x.round() as i64 as u64);
        records.short(4, a, x.ceil() as u64);
        records.short(7, a, bits32(x as f32));
        note_whole(&mut tally, x);
        note_narrow(&mut tally, x);
    }
    tally.report()
}

fn note_whole(tally: &mut Tally, x: f64) {
    let half = |x: f64| x.fract().abs() == 0.5;
    tally.note("nan", x.is_nan());
    tally.note("infinite", x.is_infinite());
    tally.note("+0", x.to_bits() == 0);
    tally.note("-0", x.to_bits() == 1 << 63);
    tally.note("subnormal", x.is_subnormal());
    tally.note("half above zero", half(x) && x > 0.0);
    tally.note("half below zero", half(x) && x < 0.0);
    let near = half(stepped(x, 1)) || half(stepped(x, -1));
    tally.note("next to a half", near && !half(x));
    tally.note("to_u64 held at 0", x <= -1.0);
    tally.note("to_u64 held at 2^64 - 1", x >= TWO_64);
    let inside = x > 1.0 && x < TWO_64 && x.fract() != 0.0;
    tally.note("to_u64 inside, fraction dropped", inside);
    tally.note("to_i64 held at -2^63", x < -TWO_63);
    tally.note("to_i64 held at 2^63 - 1", x >= TWO_63);
    tally.note("to_i64 inside, below zero", x < -1.0 && x > -TWO_63);
    let power = x.round().to_bits() & FRACTION == 0 && x.round() > 1.0;
    let up = power && x < x.round();
    tally.note("round up to the next power of two", up);
    let minus_zero = x.round().to_bits() == 1 << 63 && x < 0.0;
    tally.note("round to -0", minus_zero);
    tally.note("ceil up", x > 0.0 && x.ceil() != x);
    tally.note("ceil held at 2^64 - 1", x.ceil() >= TWO_64);
}

fn note_narrow(tally: &mut Tally, x: f64) {
    if x.is_nan() || x.is_infinite() {
        return;
    }
    let y = x as f32;
    let back = f64::from(y);
    tally.note("to_f32 exact", back == x && x != 0.0);
    tally.note("to_f32 inexact", back != x && y.is_finite());
    tally.note("to_f32 overflow", y.is_infinite());
    tally.note("to_f32 subnormal", y.is_subnormal());
    tally.note("to_f32 to zero", y == 0.0 && x != 0.0);
    let smallest = y.abs() == f32::MIN_POSITIVE && back.abs() > x.abs();
    tally.note("to_f32 up to the smallest normal", smallest);
    if y.is_infinite() || back == x {
        return;
    }
    // The neighbour on the other side of x is as far away at a tie.
    let down = back.abs() < x.abs();
    let by = if down { 1 } else { -1 };
    let other = f64::from(f32::from_bits(y.to_bits().wrapping_add_signed(by)));
    let tie = (x - back).abs() == (other - x).abs();
    tally.note("to_f32 tie to even, down", tie && down);
    tally.note("to_f32 tie to even, up", tie && !down);
}

/// Ops 5 and 6. Two zeros of unlike signs are left out of `max`: Rust leaves
/// their order open. `clamp` is asked with lo <= hi only, as Rust demands.
fn pairs(records: &mut Records, rng: &mut Rng) -> Result<(), String> {
    let mut tally = Tally::new(
        "ieee: max and clamp",
        &[
            "max: first larger",
            "max: second larger",
            "max: equal",
            "max: first nan",
            "max: second nan",
            "max: both nan",
            "max: infinite",
            "clamp: below",
            "clamp: inside",
            "clamp: above",
            "clamp: nan",
            "clamp: -0 at the lower end +0 stays",
            "clamp: lo = hi",
        ],
    );
    let sides = [
        0.0,
        f64::from_bits(1),
        f64::MIN_POSITIVE,
        0.5,
        stepped(0.6, -1),
        1.0,
        stepped(1.0, 1),
        700.0,
        TWO_53,
        f64::MAX,
        f64::INFINITY,
    ];
    let mut list: Vec<f64> = sides.iter().flat_map(|&x| [x, -x]).collect();
    list.extend(nans());
    for _ in 0..6 {
        list.push(f64::from_bits(rng.bits()));
    }
    for &x in &list {
        for &y in &list {
            if x == 0.0 && y == 0.0 && x.to_bits() != y.to_bits() {
                continue;
            }
            let larger = x.max(y);
            assert!(larger.is_nan() == (x.is_nan() && y.is_nan()));
            records.short(5, [x.to_bits(), y.to_bits(), 0], bits64(larger));
            tally.note("max: first larger", x > y);
            tally.note("max: second larger", x < y);
            tally.note("max: equal", x == y);
            tally.note("max: first nan", x.is_nan() && !y.is_nan());
            tally.note("max: second nan", !x.is_nan() && y.is_nan());
            tally.note("max: both nan", x.is_nan() && y.is_nan());
            tally.note("max: infinite", larger.is_infinite());
        }
    }
    let ends = [
        (0.0, 1.0),
        (-0.0, 1.0),
        (1.0, 1.0),
        (1.0, 700.0),
        (1.0, 65_536.0),
        (-1.0, -0.5),
        (0.0, 0.0),
        (f64::NEG_INFINITY, f64::INFINITY),
        (f64::from_bits(1), f64::MIN_POSITIVE),
        (-TWO_53, f64::MAX),
        (f64::INFINITY, f64::INFINITY),
    ];
    for (lo, hi) in ends {
        let near = [lo, hi]
            .into_iter()
            .flat_map(|e: f64| [e, -e, stepped(e, 1), stepped(e, -1)]);
        for x in list.iter().copied().chain(near) {
            let y = x.clamp(lo, hi);
            records.short(6, [x.to_bits(), lo.to_bits(), hi.to_bits()], bits64(y));
            tally.note("clamp: below", x < lo);
            tally.note("clamp: inside", x > lo && x < hi);
            tally.note("clamp: above", x > hi);
            tally.note("clamp: nan", x.is_nan());
            let zero = x.to_bits() == 1 << 63 && lo.to_bits() == 0 && y.to_bits() == x.to_bits();
            tally.note("clamp: -0 at the lower end +0 stays", zero);
            tally.note("clamp: lo = hi", lo == hi);
        }
    }
    tally.report()
}

/// Op 8.
fn widen(records: &mut Records, rng: &mut Rng) -> Result<(), String> {
    let names = ["zero", "subnormal", "normal", "infinite", "nan"];
    let mut tally = Tally::new("ieee: to_f64", &names);
    let mut list = vec![0, 1, 2, 0x007f_ffff, 0x0080_0000, 0x3f80_0000, 0x3f19_999a];
    list.extend([
        0x7f7f_ffff,
        0x7f80_0000,
        0x7f80_0001,
        0x7fc0_0000,
        0x7fff_ffff,
    ]);
    for bit in 0..23 {
        list.extend([1 << bit, (1 << bit) - 1, 0x0080_0000 | 1 << bit]);
    }
    for _ in 0..120 {
        list.push(rng.bits() as u32 & 0x7fff_ffff);
        list.push(rng.bits() as u32 & 0x007f_ffff);
    }
    for bits in list {
        for sign in [0, 1 << 31] {
            let x = f32::from_bits(bits | sign);
            records.short(8, [u64::from(bits | sign), 0, 0], bits64(f64::from(x)));
            tally.note("zero", x == 0.0);
            tally.note("subnormal", x.is_subnormal());
            tally.note("normal", x.is_normal());
            tally.note("infinite", x.is_infinite());
            tally.note("nan", x.is_nan());
        }
    }
    tally.report()
}
