//! The numbers that the port holds as constants, as text.

use slowrx::{dsp, sync};
use std::fmt::Write;

/// Samples of a parity tone.
pub const TONE_SAMPLES: usize = 49;

/// A table of angles and its name.
type Table = (&'static str, fn(usize) -> f64);

/// All facts, one a line: name, place, bits in hexadecimal and decimal.
#[must_use]
pub fn text() -> String {
    let mut out = String::new();
    out += "# Constants of the port: name, place, bits (hexadecimal), bits (decimal).\n";
    out += "# sine, cosine: f64, angle 30 + q/2 degrees; tangent: f64, 60 - q/2 degrees.\n";
    out += "# hann: f32, build_hann(16). goertzel: f64, coefficient for 49 samples at that Hz.\n";
    let tables: [Table; 3] = [
        ("sine", sync::access::sine),
        ("cosine", sync::access::cosine),
        ("tangent", sync::access::tangent),
    ];
    for (name, entry) in tables {
        for q in 0..sync::access::ANGLES {
            let bits = entry(q).to_bits();
            line(&mut out, name, q, &format!("{bits:016x}"), bits);
        }
    }
    for (i, x) in dsp::access::build_hann(16).into_iter().enumerate() {
        let bits = x.to_bits();
        line(&mut out, "hann", i, &format!("{bits:08x}"), u64::from(bits));
    }
    for hz in [1500, 2300] {
        let x = dsp::access::goertzel_coefficient(TONE_SAMPLES, f64::from(hz));
        let bits = x.to_bits();
        line(
            &mut out,
            "goertzel",
            hz as usize,
            &format!("{bits:016x}"),
            bits,
        );
    }
    out
}

fn line(out: &mut String, name: &str, place: usize, hex: &str, bits: u64) {
    writeln!(out, "{name} {place} {hex} {bits}").expect("a String takes everything");
}
