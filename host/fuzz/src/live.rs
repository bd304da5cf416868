//! Sessions that were opened, with their stores and what they are to hear.

use crate::lent::Lent;
use crate::rng::Rng;
use crate::tally::Tally;
use crate::{due, ensure, unsound, Outcome, MOST_FLAGS};
use funnelivy::ffi::{self, RawSession};
use funnelivy::{has_parity_tone, sample_store_length};

/// Line and pulse of the modes that are fed to their end here, in flags: Robot
/// 8 B/W, Robot 12 B/W, Robot 24 and Robot 36.
const LINES: [(u8, f64, usize); 4] = [
    (8, 0.066_9 * 2_756.25, 19),
    (7, 0.1 * 2_756.25, 19),
    (3, 0.15 * 2_756.25, 24),
    (4, 0.15 * 2_756.25, 24),
];

pub struct Live {
    pub record: RawSession,
    pub flags: Lent<u8>,
    pub samples: Lent<f32>,
    /// The flags that come in.
    pub sound: Vec<u8>,
}

/// Window and picture of a mode.
fn sizes(mode: u8) -> (usize, usize) {
    // SAFETY: numbers only.
    let r = unsafe { ffi::funnelivy_sizes(mode) };
    let count = |n| usize::try_from(n).unwrap_or(0);
    (count(r.window), count(r.picture))
}

/// Pulses from a flag on, which may come too late for a whole picture, now and
/// then so long that windows tie; or noise; or nothing.
#[allow(
    clippy::cast_precision_loss,
    clippy::cast_possible_truncation,
    clippy::cast_sign_loss
)]
fn sound(rng: &mut Rng, (mode, line, pulse): (u8, f64, usize), n: usize) -> Vec<u8> {
    let first = match rng.below(8) {
        0 => return vec![0; n],
        1 => return (0..n).map(|_| u8::from(rng.once_in(10))).collect(),
        2 | 3 => sizes(mode).0 + 600 + rng.below(sizes(mode).1 / 2),
        _ => rng.below(500),
    };
    let pulse = pulse + rng.pick(&[0, 0, 0, 3, 60]);
    let mut flags = vec![0; n];
    for y in 0..240 {
        let from = first + (f64::from(y) * line) as usize;
        let to = (from + pulse).min(n);
        flags[from.min(to)..to].fill(1);
    }
    flags
}

/// A mode, and the flags of a session of it with the shortest store.
pub fn heard(rng: &mut Rng) -> (u8, Vec<u8>) {
    let kind = rng.pick(&LINES);
    let (window, picture) = sizes(kind.0);
    (kind.0, sound(rng, kind, window + picture))
}

/// Opens with valid settings.
pub fn valid(rng: &mut Rng, tally: &mut Tally) -> Result<Live, String> {
    // The two Robot modes have the long stores, so they come seldom.
    let kind = rng.pick(&[0, 0, 0, 0, 0, 0, 1, 1, 2, 3]);
    let (mode, line, pulse) = LINES[kind];
    let (window, picture) = sizes(mode);
    let capacity = window + picture + rng.pick(&[0, 0, 0, 1, 500]);
    let asked = sample_store_length(mode, capacity);
    let flags = Lent::new(rng, &vec![0xa5; capacity]);
    let samples = Lent::new(rng, &vec![f32::NAN; asked]);
    let first = [0; 4].map(|_| rng.sample());
    let anchor = rng.pick(&[0, 1, 1 << 62, 1_000_003]);
    let sound = sound(rng, (mode, line, pulse), capacity + 5);
    let mut live = Live {
        record: unopened(),
        flags,
        samples,
        sound,
    };
    let refusal = open(tally, &mut live, mode, anchor, &Lent::new(rng, &first))?;
    ensure(refusal == 0, "open: valid settings were refused")?;
    Ok(live)
}

/// A record of zeros, as a refused call gives it.
pub fn unopened() -> RawSession {
    RawSession {
        anchor: 0,
        capacity: 0,
        taken: 0,
        evaluations: 0,
        streak: 0,
        position: 0,
        rate: 0.0,
        slant: 0.0,
        skip: 0,
        start_quality: 0.0,
        quality: 0.0,
        windows: 0,
        mode: 0,
        phase: 0,
        has_slant: 0,
    }
}

/// Opens with settings of which each may be outside its limits.
pub fn wild(rng: &mut Rng, tally: &mut Tally) -> Outcome {
    let mode = rng.mode();
    let anchor = match rng.below(3) {
        0 => rng.about(1 << 62),
        _ => rng.bits() >> 3,
    };
    let (window, picture) = sizes(mode);
    let enough = window + picture;
    let capacity = match rng.below(8) {
        0 => enough.saturating_sub(1),
        1 => rng.pick(&[0, 1, 5_000]),
        2 if !has_parity_tone(mode) => MOST_FLAGS + rng.below(2),
        _ => enough + rng.below(2),
    };
    let asked = sample_store_length(mode, capacity);
    let lent = match rng.below(4) {
        0 => asked.saturating_sub(1),
        1 => asked + 1,
        _ => asked,
    };
    let n = rng.pick(&[4, 4, 4, 4, 4, 3, 5, 0]);
    let loud = rng.once_in(4);
    let first: Vec<f32> = (0..n)
        .map(|_| if loud { rng.wild() } else { rng.sample() })
        .collect();
    let mut live = Live {
        record: unopened(),
        flags: Lent::zeros(capacity),
        samples: Lent::new(rng, &vec![7.0; lent]),
        sound: Vec::new(),
    };
    open(tally, &mut live, mode, anchor, &Lent::new(rng, &first)).map(|_| ())
}

/// The number that is due.
fn refusal(live: &Live, mode: u8, anchor: u64, first: &[f32]) -> u32 {
    let (capacity, stored) = (live.flags.len(), live.samples.len());
    let (window, picture) = sizes(mode);
    let short = stored < sample_store_length(mode, capacity);
    due(&[
        (mode > 15, 1),
        (anchor > 1 << 62, 4),
        (
            capacity < window + picture || capacity > MOST_FLAGS || short,
            5,
        ),
        (first.len() != 4, 6),
        (first.iter().any(|x| unsound(*x)), 8),
    ])
}

/// Whether the sample store of Robot 24 and 36 got the first four samples, and
/// any other nothing.
fn stored(live: &Live, mode: u8, refusal: u32, first: &[f32]) -> Outcome {
    if refusal != 0 || !has_parity_tone(mode) {
        return ensure(live.samples.same(), "open: the sample store changed");
    }
    ensure(
        live.samples.same_but(0..4),
        "open: written beside the first four",
    )?;
    ensure(live.samples.holds(0, first), "open: not the first four")
}

/// Makes the call and checks what it gave and wrote.
fn open(
    tally: &mut Tally,
    live: &mut Live,
    mode: u8,
    anchor: u64,
    first: &Lent<f32>,
) -> Result<u32, String> {
    let (capacity, samples) = (live.flags.len(), live.samples.len());
    live.samples.keep();
    // SAFETY: each pointer and length are those of lent memory.
    let r = unsafe {
        ffi::funnelivy_open(
            mode,
            anchor,
            live.flags.ptr(),
            capacity,
            live.samples.mut_ptr(),
            samples,
            first.ptr(),
            first.len(),
        )
    };
    let asked = refusal(live, mode, anchor, first.contents());
    tally.count("open", asked, r.refusal)?;
    let opened = RawSession {
        anchor,
        capacity: capacity as u64,
        mode,
        ..unopened()
    };
    let record = if asked == 0 { opened } else { unopened() };
    ensure(r.session == record, "open: another record")?;
    stored(live, mode, asked, first.contents())?;
    live.record = record;
    Ok(asked)
}
