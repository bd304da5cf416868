//! The safe library in the caller's float environment, whatever that is: its
//! answers are those of the default one, and the environment stays as it was.
//! Counted is how often the C interface itself answers otherwise there.

use crate::card;
use crate::rng::Rng;
use crate::tally::Tally;
use crate::{ensure, Outcome};
use funnelivy::float_env::{mxcsr, with, DEFAULT};
use funnelivy::{ffi, Card, Reading, Refusal, Session, Work, CARD_BYTES};
use std::fmt::Debug;
use std::hint::black_box;

/// Any rounding; subnormals kept, made 0, taken for 0 or both; exceptions that
/// happened; and now and then none that is masked.
fn environment(rng: &mut Rng) -> u32 {
    let masked = if rng.once_in(4) { 0 } else { DEFAULT };
    let rounding = u32::from(rng.byte() & 3) << 13;
    let subnormals = rng.pick(&[0, 1 << 6, 1 << 15, 1 << 15 | 1 << 6]);
    masked | rounding | subnormals | u32::from(rng.byte() & 0x3f)
}

/// Makes a call with this MXCSR. Gives MXCSR after it too.
fn under<R>(bits: u32, mut call: impl FnMut() -> R) -> (R, u32) {
    // SAFETY: no reserved bit is set, and the calls do no float operation in Rust.
    unsafe { with(bits, || (black_box(call()), mxcsr())) }
}

/// Whether MXCSR is followed here. Valgrind follows it in part.
pub fn followed() -> bool {
    let mut spectrum = [0.0_f32; 258];
    spectrum[54] = 1e-40;
    let flushing = DEFAULT | 1 << 15 | 1 << 6;
    // SAFETY: the pointer and length are those of the array.
    let heard = || unsafe { ffi::funnelivy_has_sync(spectrum.as_ptr(), 258, 0.0) }.has_sync;
    let upward = DEFAULT | 2 << 13;
    // SAFETY: numbers only.
    let picture = || unsafe { ffi::funnelivy_sizes(black_box(6)) }.picture;
    under(flushing, heard).0 != heard() && under(upward, picture).0 != picture()
}

/// The safe call in both environments, and the C interface's own in both.
fn compare<S: Debug, R: Debug>(
    rng: &mut Rng,
    tally: &mut Tally,
    case: &'static str,
    mut safe: impl FnMut() -> S,
    mut raw: impl FnMut() -> R,
) -> Outcome {
    let before = environment(rng);
    let (got, after) = under(before, &mut safe);
    let due = format!("{:?}", safe());
    ensure(format!("{got:?}") == due, case)?;
    ensure(after == before, "the float environment was changed")?;
    let (otherwise, _) = under(before | DEFAULT, &mut raw);
    if format!("{otherwise:?}") != format!("{:?}", raw()) {
        tally.case(case);
    }
    Ok(())
}

fn sizes_and_columns(rng: &mut Rng, tally: &mut Tally) -> Outcome {
    let (mode, n) = (rng.mode(), rng.about(65_536));
    compare(
        rng,
        tally,
        "float environment: other sizes or columns",
        || funnelivy::sizes(mode),
        // SAFETY: numbers only.
        || unsafe { ffi::funnelivy_sizes(mode) },
    )?;
    compare(
        rng,
        tally,
        "float environment: other sizes or columns",
        || funnelivy::sync_pulse_columns(mode, n),
        // SAFETY: numbers only.
        || unsafe { ffi::funnelivy_columns(mode, n) },
    )
}

fn quality(rng: &mut Rng, tally: &mut Tally) -> Outcome {
    let counts: Vec<u32> = (0..rng.below(80)).map(|_| rng.byte().into()).collect();
    let (mode, lines) = (rng.mode(), 1 + u64::from(rng.byte()));
    compare(
        rng,
        tally,
        "float environment: another quality",
        || funnelivy::sync_quality(&counts, mode, lines),
        // SAFETY: pointer and length are those of the list.
        || unsafe { ffi::funnelivy_quality(counts.as_ptr(), counts.len(), mode, lines) },
    )
}

/// A sample as it is, or so small that it is subnormal.
fn small(rng: &mut Rng) -> f32 {
    let scale = rng.pick(&[1.0, 1e-38, 1e-40]);
    rng.sample() * scale
}

fn sync_window(rng: &mut Rng, tally: &mut Tally) -> Outcome {
    let sound: Vec<f32> = (0..16).map(|_| small(rng)).collect();
    let centre = rng.below(24) as u64;
    let (mut own, mut lent) = ([0.0; 512], [0.0; 512]);
    compare(
        rng,
        tally,
        "float environment: another window",
        || funnelivy::sync_window(&sound, centre, &mut own).map(|()| own.map(f32::to_bits)),
        || {
            let to = lent.as_mut_ptr();
            // SAFETY: each pointer and length are those of a list.
            let r = unsafe { ffi::funnelivy_sync_window(sound.as_ptr(), 16, centre, to, 512) };
            (r, lent.map(f32::to_bits))
        },
    )
}

fn has_sync(rng: &mut Rng, tally: &mut Tally) -> Outcome {
    let mut spectrum = [0.0; 258];
    let scale = rng.pick(&[1.0, 1e-38, 1e-40]);
    for _ in 0..1 + rng.below(20) {
        spectrum[rng.below(258)] = rng.sample() * scale;
    }
    let shift = rng.pick(&[0.0, 43.0, -2_000.0]);
    compare(
        rng,
        tally,
        "float environment: another decision",
        || funnelivy::has_sync(&spectrum, shift),
        // SAFETY: pointer and length are those of the spectrum.
        || unsafe { ffi::funnelivy_has_sync(spectrum.as_ptr(), 258, shift) },
    )
}

fn find_sync(rng: &mut Rng, tally: &mut Tally) -> Outcome {
    let every = 100 + rng.below(300);
    let flags: Vec<u8> = (0..9_000).map(|p| u8::from(p % every < 20)).collect();
    let (mode, rate) = (rng.byte() % 16, rng.within(8_000.0, 48_000.0));
    let (mut own, mut work) = (Work::new(), Work::new());
    compare(
        rng,
        tally,
        "float environment: another report",
        || funnelivy::find_sync(&flags, rate, mode, &mut own.img, &mut own.votes),
        // SAFETY: each pointer and length are those of a list.
        || unsafe {
            ffi::funnelivy_find_sync(
                flags.as_ptr(),
                flags.len(),
                rate,
                mode,
                work.img.as_mut_ptr(),
                work.img.len(),
                work.votes.as_mut_ptr(),
                work.votes.len(),
            )
        },
    )
}

/// A card that is often refused, and its bytes.
fn card(rng: &mut Rng, tally: &mut Tally) -> Outcome {
    let raw = card::faint(rng);
    let bytes = card::encoded(&raw);
    let own = Card::from(raw);
    let mut out = [0; CARD_BYTES];
    compare(
        rng,
        tally,
        "float environment: another card",
        || own.to_bytes(),
        // SAFETY: pointer and length are those of the array.
        || unsafe { ffi::funnelivy_write_card(raw, out.as_mut_ptr(), CARD_BYTES) },
    )?;
    compare(
        rng,
        tally,
        "float environment: another card",
        || Card::read(&bytes),
        // SAFETY: pointer and length are those of the bytes.
        || unsafe { ffi::funnelivy_read_card(bytes.as_ptr(), bytes.len()) },
    )
}

/// Feeds of a session with this MXCSR, through the library and to its end.
fn fed(bits: u32, mode: u8, flags: &[u8], samples: &[f32]) -> Result<(Reading, Card), Refusal> {
    let mut work = Work::new();
    let mut session = under(bits, || Session::open(mode, 0, flags.len(), &samples[..4])).0?;
    for (some, with_them) in flags.chunks(600).zip(samples[4..].chunks(2_400)) {
        let (taken, after) = under(bits, || session.feed(some, with_them, &mut work));
        if taken? < some.len() as u64 || after != bits {
            break;
        }
    }
    let card = under(bits, || session.card()).0?;
    under(bits, || session.read())
        .0
        .map(|reading| (reading, card))
}

/// A session whose samples, and with them any parity tone, are subnormal.
fn session(rng: &mut Rng, tally: &mut Tally) -> Outcome {
    let (mode, flags) = crate::live::heard(rng);
    let samples: Vec<f32> = (0..4 * flags.len() + 4)
        .map(|_| rng.sample() * 1e-38)
        .collect();
    let due = fed(DEFAULT, mode, &flags, &samples);
    let got = fed(environment(rng), mode, &flags, &samples);
    ensure(
        format!("{got:?}") == format!("{due:?}"),
        "float environment: another session",
    )?;
    if due.is_ok() {
        tally.case("float environment: a session to its end");
    }
    Ok(())
}

/// Each call in some environment.
pub fn all(rng: &mut Rng, tally: &mut Tally) -> Outcome {
    for _ in 0..8 {
        sizes_and_columns(rng, tally)?;
        quality(rng, tally)?;
        sync_window(rng, tally)?;
        has_sync(rng, tally)?;
        card(rng, tally)?;
    }
    find_sync(rng, tally)?;
    if rng.once_in(8) {
        session(rng, tally)?;
    }
    Ok(())
}
