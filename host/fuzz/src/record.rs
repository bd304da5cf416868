//! Records that no session returned, and read, which takes any record.

use crate::live::Live;
use crate::rng::Rng;
use crate::tally::Tally;
use crate::{due, ensure, Outcome};
use funnelivy::ffi::{self, RawSession};

/// Any count, often one that no session has.
fn windows(rng: &mut Rng) -> u16 {
    let any = u16::from_le_bytes([rng.byte(), rng.byte()]);
    rng.pick(&[0, 1, 700, 701, any, any])
}

/// All random, but often with the length of the store, without which every
/// feed is refused with 5.
pub fn random(rng: &mut Rng, live: &Live) -> RawSession {
    let small = rng.once_in(2);
    let mut number = || {
        if small {
            rng.bits() % 30_000
        } else {
            rng.bits()
        }
    };
    let mut record = RawSession {
        anchor: number(),
        capacity: number(),
        taken: number(),
        evaluations: number(),
        streak: number(),
        position: number(),
        rate: f64::from_bits(number()),
        slant: f64::from_bits(number()),
        skip: number().cast_signed(),
        start_quality: 0.0,
        quality: 0.0,
        windows: 0,
        mode: 0,
        phase: 0,
        has_slant: 0,
    };
    record.start_quality = rng.wild();
    record.quality = rng.wild();
    record.windows = windows(rng);
    let (mode, phase) = (rng.byte(), rng.byte());
    record.mode = if small { mode % 16 } else { mode };
    record.phase = if small { phase % 2 } else { phase };
    record.has_slant = rng.byte();
    if rng.once_in(4) {
        return record;
    }
    record.capacity = live.flags.len() as u64;
    record
}

/// One field changed: to a number near it, near a limit, or to anything.
pub fn changed(rng: &mut Rng, mut record: RawSession) -> RawSession {
    let near = |rng: &mut Rng, n: u64| match rng.below(3) {
        0 => n.wrapping_add(rng.pick(&[1, 64, u64::MAX])),
        1 => rng.bits() % 30_000,
        _ => rng.about(1 << 62),
    };
    match rng.below(10) {
        0 => record.anchor = near(rng, record.anchor),
        1 => record.capacity = near(rng, record.capacity),
        2 => record.taken = near(rng, record.taken),
        3 => record.evaluations = near(rng, record.evaluations),
        4 => record.streak = near(rng, record.streak),
        5 => record.position = near(rng, record.position),
        6 => record.mode = rng.mode(),
        7 => record.phase = rng.byte() % 6,
        8 => record.windows = windows(rng),
        _ => record.start_quality = rng.wild(),
    }
    record
}

/// Read, whose answer is the record's own fields.
pub fn read(tally: &mut Tally, record: RawSession) -> Outcome {
    // SAFETY: a struct of numbers by value.
    let r = unsafe { ffi::funnelivy_read(record) };
    tally.count("read", due(&[(record.phase <= 1, 11)]), r.refusal)?;
    if r.refusal != 0 {
        let counts = (r.end, r.taken, r.evaluations);
        let bare = (r.start, r.windows, r.skip, r.has_slant);
        let floats = [
            r.rate,
            r.slant,
            f64::from(r.start_quality),
            f64::from(r.quality),
        ];
        let zeros = floats.iter().all(|x| x.to_bits() == 0);
        return ensure(
            counts == (0, 0, 0) && bare == (0, 0, 0, 0) && zeros,
            "read: numbers beside a refusal",
        );
    }
    let (end, case) = match record.phase {
        2 => (0, "read: reported"),
        4 => (2, "read: cut short"),
        _ => (1, "read: unfound"),
    };
    ensure(r.end == end, "read: another end than the phase's")?;
    ensure(
        (r.taken, r.evaluations) == (record.taken, record.evaluations),
        "read: other counts",
    )?;
    let (start, windows) = if end == 1 {
        (0, 0)
    } else {
        let start = record.anchor.wrapping_add(record.position);
        (start, record.windows.into())
    };
    ensure(r.start == start, "read: another start")?;
    ensure(r.windows == windows, "read: another count of windows")?;
    tally.case(case);
    Ok(())
}
