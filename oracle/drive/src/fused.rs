//! The part of ieee_vectors that is `mul_add`.

use crate::ieee::{nans, stepped, FRACTION};
use crate::record::{bits64, Records};
use crate::rng::Rng;
use crate::tally::Tally;

/// A fraction field of one of several shapes.
fn fraction(rng: &mut Rng) -> u64 {
    match rng.below(7) {
        0 => 0,
        1 => FRACTION,
        2 => 1,
        3 => 1 << rng.below(52),
        4 => FRACTION ^ (1 << rng.below(52)),
        5 => FRACTION & !((1 << rng.below(52)) - 1),
        _ => rng.bits() & FRACTION,
    }
}

/// A finite float with about this exponent field.
fn shaped(rng: &mut Rng, exponent: i64) -> f64 {
    let exponent = exponent.clamp(0, 2046) as u64;
    f64::from_bits((rng.bits() & 1) << 63 | exponent << 52 | fraction(rng))
}

/// Op 9, `mul_add`.
///
/// # Errors
/// Classes that were not reached.
pub fn vectors(records: &mut Records, rng: &mut Rng) -> Result<(), String> {
    let mut tally = Tally::new(
        "ieee: mul_add",
        &[
            "a nan operand",
            "an infinite operand",
            "zero times infinity",
            "infinity less infinity",
            "a zero operand",
            "a subnormal operand",
            "result +0",
            "result -0",
            "all cancels: +0 of operands that are not zero",
            "cancellation of 5 to 20 bits",
            "cancellation of 21 to 50 bits",
            "cancellation of more bits",
            "result subnormal",
            "result subnormal and inexact",
            "result the smallest normal",
            "overflow",
            "result largest finite",
            "unlike the sum of the rounded product",
            "tie, down to even",
            "tie, up to even",
            "sticky bit above a tie",
            "sticky bit below a tie",
            "product far below the addend",
            "addend far below the product",
            "product below the smallest subnormal, alone",
            "addend's ulp divides the product",
        ],
    );
    let mut number = 0;
    let mut put = |x: f64, y: f64, z: f64| {
        number += 1;
        let r = x.mul_add(y, z);
        records.short(9, [x.to_bits(), y.to_bits(), z.to_bits()], bits64(r));
        note_fused(&mut tally, x, y, z);
    };
    let named = [
        0.0,
        1.0,
        f64::INFINITY,
        f64::from_bits(1),
        f64::MAX,
        f64::MIN_POSITIVE,
    ];
    let mut specials: Vec<f64> = named.iter().flat_map(|&x| [x, -x]).collect();
    specials.extend(&nans()[..2]);
    for &x in &specials {
        for &y in &specials {
            for &z in &specials {
                if rng.permille(300) {
                    put(x, y, z);
                }
            }
        }
    }
    for _ in 0..1500 {
        // the addend anywhere beside the product
        let (ex, ey) = (rng.between(900, 1145), rng.between(900, 1145));
        let ez = ex + ey - 1023 + rng.between(-130, 130);
        put(shaped(rng, ex), shaped(rng, ey), shaped(rng, ez));
    }
    for _ in 0..1500 {
        // the addend undoes the rounded product, or nearly
        let (ex, ey) = (rng.between(900, 1145), rng.between(900, 1145));
        let (x, y) = (shaped(rng, ex), shaped(rng, ey));
        let by = match rng.below(3) {
            0 => rng.between(-2, 2),
            1 => 1 << rng.below(50),
            _ => -(1 << rng.below(50)),
        };
        put(x, y, stepped(-(x * y), by));
    }
    for _ in 0..1200 {
        ties(rng, &mut put);
    }
    for _ in 0..1200 {
        // results among the subnormals
        let ex = rng.between(0, 1100);
        let ey = 1023 - ex + rng.between(-100, 100);
        let ez = rng.between(0, 60);
        put(shaped(rng, ex), shaped(rng, ey), shaped(rng, ez));
    }
    for _ in 0..900 {
        // around the smallest normal, with cancellation
        let ex = rng.between(1, 500);
        let (ey, ez) = (1074 - ex + rng.between(-50, 60), rng.between(0, 3));
        let (x, y) = (shaped(rng, ex), shaped(rng, ey));
        let z = match rng.below(3) {
            0 => shaped(rng, ez),
            1 => -(x * y),
            _ => f64::MIN_POSITIVE.copysign(-(x * y)),
        };
        put(x, y, z);
    }
    for _ in 0..900 {
        // subnormal operands
        let (ey, ez) = (rng.between(900, 2046), rng.between(0, 1000));
        let x = shaped(rng, 0);
        put(x, shaped(rng, ey), shaped(rng, ez));
    }
    for _ in 0..900 {
        // around the largest finite
        let ex = rng.between(1023, 2046);
        let ey = 3069 - ex + rng.between(-3, 1);
        let ez = rng.between(1940, 2046);
        put(shaped(rng, ex), shaped(rng, ey), shaped(rng, ez));
    }
    for _ in 0..900 {
        // the Goertzel filter's own sizes
        let x = rng.unit() * 60.0 - 30.0;
        let y = if rng.permille(500) {
            x
        } else {
            rng.unit() * 60.0 - 30.0
        };
        put(x, y, rng.unit() * 1800.0 - 900.0);
    }
    for _ in 0..900 {
        let (x, y, z) = (rng.bits(), rng.bits(), rng.bits());
        put(f64::from_bits(x), f64::from_bits(y), f64::from_bits(z));
    }
    println!("ieee: mul_add {number} cases");
    assert!(number >= 10_000);
    tally.report()
}

/// An addend whose half ulp is the product exactly, or nearly.
fn ties(rng: &mut Rng, put: &mut impl FnMut(f64, f64, f64)) {
    let exponent = rng.between(200, 1800);
    let z = shaped(rng, exponent);
    let half_ulp = 2_f64.powi((exponent - 1023 - 53) as i32);
    let split = 2_f64.powi(rng.between(-100, 100) as i32);
    let (mut x, mut y) = (half_ulp * split, 1.0 / split);
    match rng.below(4) {
        0 => {}
        // a little more than the half: 1 + e, or the low bits of a product
        1 => x = stepped(x, 1),
        // a little less
        2 => x = stepped(x, -1),
        _ => {
            x = stepped(x, rng.between(1, 3));
            y = stepped(y, rng.between(-3, -1));
        }
    }
    put(if rng.permille(500) { x } else { -x }, y, z);
}

fn note_fused(tally: &mut Tally, x: f64, y: f64, z: f64) {
    let r = x.mul_add(y, z);
    let all = [x, y, z];
    tally.note("a nan operand", all.iter().any(|v| v.is_nan()));
    tally.note("an infinite operand", all.iter().any(|v| v.is_infinite()));
    let none = (x == 0.0 && y.is_infinite()) || (y == 0.0 && x.is_infinite());
    tally.note("zero times infinity", none);
    let unlike = (x * y).is_infinite() && z == -(x * y) && (x.is_infinite() || y.is_infinite());
    tally.note("infinity less infinity", unlike);
    if !all.iter().all(|v| v.is_finite()) {
        return;
    }
    let filled = all.iter().all(|&v| v != 0.0);
    tally.note("a zero operand", !filled);
    tally.note("a subnormal operand", all.iter().any(|v| v.is_subnormal()));
    tally.note("result +0", r.to_bits() == 0);
    tally.note("result -0", r.to_bits() == 1 << 63);
    let nothing = r.to_bits() == 0 && filled && x * y == -z;
    tally.note("all cancels: +0 of operands that are not zero", nothing);
    tally.note("overflow", r.is_infinite());
    tally.note("result largest finite", r.abs() == f64::MAX);
    tally.note("result subnormal", r.is_subnormal());
    tally.note("result the smallest normal", r.abs() == f64::MIN_POSITIVE);
    if !filled || r.is_infinite() {
        return;
    }
    let product = x * y;
    let shrunk = |bits: i32| r != 0.0 && r.abs() < z.abs() * 2_f64.powi(-bits);
    tally.note("cancellation of 5 to 20 bits", shrunk(5) && !shrunk(21));
    tally.note("cancellation of 21 to 50 bits", shrunk(21) && !shrunk(51));
    tally.note("cancellation of more bits", shrunk(51));
    tally.note("unlike the sum of the rounded product", product + z != r);
    let tiny = product == 0.0 && r == z;
    tally.note("product below the smallest subnormal, alone", tiny);
    let far = 2_f64.powi(-60);
    let (p, a) = (product.abs(), z.abs());
    tally.note("product far below the addend", p < a * far && r == z);
    tally.note("addend far below the product", a < p * far);
    let cut = r.is_subnormal() && (r - z != product || x.mul_add(y, -product) != 0.0);
    tally.note("result subnormal and inexact", cut);
    if !z.is_normal() || a < f64::MIN_POSITIVE * 2_f64.powi(110) {
        return;
    }
    // The product beside half an ulp of the addend, both exact.
    let ulp = stepped(a, 1) - a;
    let rest = x.mul_add(y, -product);
    let same = (product < 0.0) == (z < 0.0) && z.to_bits() & FRACTION != 0;
    let tie = p == ulp / 2.0 && same;
    tally.note("tie, down to even", tie && rest == 0.0 && r == z);
    tally.note("tie, up to even", tie && rest == 0.0 && r != z);
    let outward = (rest < 0.0) == (product < 0.0);
    let above = (p > ulp / 2.0 && p < ulp * 0.51) || (tie && rest != 0.0 && outward);
    let below = (p < ulp / 2.0 && p > ulp * 0.49) || (tie && rest != 0.0 && !outward);
    tally.note("sticky bit above a tie", above && same && r != z);
    tally.note("sticky bit below a tie", below && same && r == z);
    tally.note(
        "addend's ulp divides the product",
        rest == 0.0 && p % ulp == 0.0,
    );
}
