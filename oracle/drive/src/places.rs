//! The ledger card (02-change-requests.md, A.1) by its places and bit
//! patterns. It is written apart from `card`, which made the vectors, and
//! serves to read them again.

use crate::plain::Reading;

/// Where the fields behind mark and version begin, and the card's end.
const PLACES: [usize; 11] = [5, 6, 7, 15, 23, 31, 35, 43, 44, 52, 56];

/// The ten fields of 56 bytes: mode, end, taken, evaluations, start, start
/// quality, rate, slant index, skip and image quality.
#[must_use]
pub fn fields(bytes: &[u8; 56]) -> [u64; 10] {
    let number = |n: u64, byte: &u8| n << 8 | u64::from(*byte);
    std::array::from_fn(|i| {
        let field = &bytes[PLACES[i]..PLACES[i + 1]];
        field.iter().rev().fold(0, number)
    })
}

/// Whether fields are refused with 14.
fn wrong(fields: [u64; 10]) -> bool {
    let [mode, end, _, _, start, start_quality, rate, q, skip, quality] = fields;
    // the patterns from 0 to 1 follow one another, and a zero may have a sign
    let part = |bits: u64| bits <= 0x3f80_0000 || bits == 0x8000_0000;
    let report = [rate, q ^ 255, skip, quality];
    let right = match end {
        // positive and finite: from the smallest pattern to the one before infinity
        0 => (1..0x7ff << 52).contains(&rate) && skip.wrapping_add(1 << 62) <= 1 << 63,
        1 => start == 0 && start_quality == 0 && report == [0; 4],
        2 => report == [0; 4],
        _ => false,
    };
    !(right && mode < 16 && !(240..255).contains(&q) && part(start_quality) && part(quality))
}

/// What the reader answers: the fields, or the refusal.
///
/// # Errors
/// The refusal.
pub fn read(bytes: &[u8]) -> Result<[u64; 10], u64> {
    let bytes: &[u8; 56] = bytes.try_into().map_err(|_| 12_u64)?;
    if bytes[..5] != *b"SSR\x01\x00" {
        return Err(13);
    }
    let fields = fields(bytes);
    if wrong(fields) {
        Err(14)
    } else {
        Ok(fields)
    }
}

/// What the writer refuses, 0 for nothing.
#[must_use]
pub fn write_refusal(fields: [u64; 10], length: u64) -> u64 {
    if length != 56 {
        12
    } else if wrong(fields) {
        14
    } else {
        0
    }
}

/// The fields of a session's card: its mode and what it reads as.
#[must_use]
pub fn of_reading(mode: usize, (end, numbers): Reading) -> [u64; 10] {
    let [taken, evaluations, start, _, start_quality, rate, slant, skip, quality] = numbers;
    let q = match (end, slant) {
        (1.., _) | (_, u64::MAX) => 255,
        _ => ((f64::from_bits(slant) - 30.0) * 2.0) as u64,
    };
    let mode = mode as u64;
    [
        mode,
        end,
        taken,
        evaluations,
        start,
        start_quality,
        rate,
        q,
        skip,
        quality,
    ]
}
