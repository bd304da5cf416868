//! The library's answers do not depend on the caller's float environment, which
//! a call leaves as it was. Each test shows first that the C interface's answer
//! does depend on it.

use funnelivy::float_env::{mxcsr, with, DEFAULT};
use funnelivy::{ffi, has_sync, sizes, sync_quality};
use funnelivy::{Card, End, Reading, Refusal, Session, Work};
use std::hint::black_box;

/// Subnormals taken for 0 and made 0, as code linked with `-ffast-math` runs.
const FLUSHING: u32 = DEFAULT | 1 << 15 | 1 << 6;
/// Rounding upwards.
const UPWARD: u32 = DEFAULT | 2 << 13;

/// Every rounding, with subnormals kept, made 0, taken for 0 and both, and no
/// exception masked.
fn environments() -> impl Iterator<Item = u32> {
    (0..32).map(|n| {
        let masked = if n & 16 == 0 { DEFAULT } else { 0 };
        masked | (n & 3) << 13 | (n & 4) << 4 | (n & 8) << 12
    })
}

/// Calls in another environment; the call does no float operation in Rust.
fn under<R>(control: u32, call: impl FnOnce() -> R) -> R {
    // SAFETY: the calls below are those of the library, and copy what it gives.
    unsafe { with(control, || black_box(call())) }
}

#[test]
fn the_environments_are_all_there() {
    let all: Vec<u32> = environments().collect();
    for one in [DEFAULT, FLUSHING, UPWARD] {
        assert!(all.contains(&one));
        assert_eq!(under(one, mxcsr), one);
    }
}

#[test]
fn a_subnormal_number_of_a_spectrum_is_heard() {
    let mut spectrum = [0.0_f32; 258];
    spectrum[54] = 1e-40;
    let spectrum = black_box(spectrum);
    let raw = |control| {
        // SAFETY: the pointer and length are those of the array.
        let call = || unsafe { ffi::funnelivy_has_sync(spectrum.as_ptr(), spectrum.len(), 0.0) };
        under(control, call).has_sync
    };
    assert_eq!((raw(DEFAULT), raw(FLUSHING)), (1, 0));
    for control in environments() {
        let heard = under(control, || has_sync(&spectrum, 0.0));
        assert_eq!(heard, Ok(true), "{control:x}");
    }
}

#[test]
fn sizes_are_those_of_rounding_to_nearest() {
    const ROBOT_24_BW: u8 = 6;
    // SAFETY: numbers only.
    let raw = |control| {
        under(control, || unsafe {
            ffi::funnelivy_sizes(black_box(ROBOT_24_BW))
        })
    };
    assert_eq!(
        (raw(DEFAULT).picture, raw(UPWARD).picture),
        (66_150, 66_151)
    );
    for control in environments() {
        let given = under(control, || sizes(black_box(ROBOT_24_BW))).unwrap();
        assert_eq!(given.picture, 66_150, "{control:x}");
    }
}

/// Robot 36 in flags and samples: the first pulse, a line, a pulse; from a
/// line's start to the tone that tells its parity, and that tone.
const MODE: u8 = 4;
const FIRST_FLAG: usize = 700;
const LINE_FLAGS: f64 = 413.4375;
const PULSE_FLAGS: usize = 25;
const SEPARATOR_SAMPLES: f64 = 1_102.5;
const TONE_SAMPLES: usize = 49;

/// Flags and samples of a picture whose first line is odd, by tones that are
/// subnormal.
#[allow(
    clippy::cast_possible_truncation,
    clippy::cast_precision_loss,
    clippy::cast_sign_loss
)]
fn picture(flags: usize) -> (Vec<u8>, Vec<f32>) {
    let (mut heard, mut sound) = (vec![0; flags], vec![0.0; 4 * flags + 4]);
    for line in 0..240 {
        let begin = FIRST_FLAG as f64 + f64::from(line) * LINE_FLAGS;
        heard[begin as usize..][..PULSE_FLAGS].fill(1);
        let hz = if line % 2 == 0 { 2_300.0 } else { 1_500.0 };
        let tone = (4.0 * begin + SEPARATOR_SAMPLES) as usize;
        for (i, sample) in sound[tone - 4..][..TONE_SAMPLES + 8].iter_mut().enumerate() {
            let turn = std::f64::consts::TAU * hz * i as f64 / 11_025.0;
            *sample = (1e-39 * turn.sin()) as f32;
        }
    }
    (heard, sound)
}

/// A session over the picture, through the library.
fn through_the_library(
    control: u32,
    flags: &[u8],
    sound: &[f32],
) -> Result<(Reading, Card), Refusal> {
    let mut work = Work::new();
    let (first, rest) = sound.split_at(4);
    let mut session = under(control, || Session::open(MODE, 0, flags.len(), first))?;
    for (some, with_them) in flags.chunks(512).zip(rest.chunks(4 * 512)) {
        if under(control, || session.feed(some, with_them, &mut work))? < some.len() as u64 {
            break;
        }
    }
    let card = under(control, || session.card())?;
    under(control, || session.read()).map(|reading| (reading, card))
}

/// The same through the C interface: the start.
fn through_the_c_interface(control: u32, flags: &[u8], sound: &[f32]) -> u64 {
    let (first, rest) = sound.split_at(4);
    let mut work = Work::new();
    let (mut flag_store, mut sample_store) = (vec![0; flags.len()], vec![0.0; sound.len()]);
    // SAFETY: each pointer and length is that of a vector or slice that outlives
    // the call; those that are written are borrowed mutably and do not overlap.
    let mut session = under(control, || unsafe {
        ffi::funnelivy_open(
            MODE,
            0,
            flag_store.as_ptr(),
            flag_store.len(),
            sample_store.as_mut_ptr(),
            sample_store.len(),
            first.as_ptr(),
            first.len(),
        )
    })
    .session;
    for (some, with_them) in flags.chunks(512).zip(rest.chunks(4 * 512)) {
        // SAFETY: as above.
        let fed = under(control, || unsafe {
            ffi::funnelivy_feed(
                session,
                flag_store.as_mut_ptr(),
                flag_store.len(),
                sample_store.as_mut_ptr(),
                sample_store.len(),
                work.img.as_mut_ptr(),
                work.img.len(),
                work.votes.as_mut_ptr(),
                work.votes.len(),
                some.as_ptr(),
                some.len(),
                with_them.as_ptr(),
                with_them.len(),
            )
        });
        assert_eq!(fed.refusal, 0);
        session = fed.session;
        if fed.taken < some.len() as u64 {
            break;
        }
    }
    // SAFETY: a struct of numbers by value.
    unsafe { ffi::funnelivy_read(session) }.start
}

#[test]
fn subnormal_tones_tell_the_parity_of_a_line() {
    let sizes = sizes(MODE).unwrap();
    let (flags, sound) = picture(usize::try_from(sizes.window + sizes.picture).unwrap());
    let raw = |control| through_the_c_interface(control, &flags, &sound);
    assert_eq!((raw(DEFAULT), raw(FLUSHING)), (947, 2_600));
    let given = through_the_library(DEFAULT, &flags, &sound).unwrap();
    assert!(matches!(given.0.end, End::Reported { start: 947, .. }));
    assert_eq!((given.1.end, given.1.start), (0, 947));
    for control in environments() {
        let again = through_the_library(control, &flags, &sound);
        assert_eq!(again, Ok(given), "{control:x}");
    }
}

/// A reported card with this image quality, and else with the smallest floats.
fn faint_card(quality: u32) -> Card {
    Card {
        mode: MODE,
        end: 0,
        taken: 1,
        evaluations: 1,
        start: 1,
        start_quality: f32::from_bits(1),
        rate: f64::from_bits(1),
        slant: 120,
        skip: 1,
        quality: f32::from_bits(quality),
    }
}

#[test]
fn a_quality_just_below_0_is_not_taken_for_0() {
    let (above, below) = (faint_card(1), faint_card(0x8000_0001));
    // A subnormal rate may be taken for 0 there, and the card be refused for that.
    let raw = |control| {
        let card = ffi::RawCard {
            taken: below.taken,
            evaluations: below.evaluations,
            start: below.start,
            skip: below.skip,
            rate: 11_025.0,
            start_quality: below.start_quality,
            quality: below.quality,
            mode: below.mode,
            end: below.end,
            slant: below.slant,
        };
        let mut out = [0_u8; 56];
        // SAFETY: the pointer and length are those of the array.
        let call = || unsafe { ffi::funnelivy_write_card(card, out.as_mut_ptr(), out.len()) };
        under(control, call)
    };
    assert_eq!((raw(DEFAULT), raw(FLUSHING)), (14, 0));
    let bytes = above.to_bytes().unwrap();
    let mut negative = bytes;
    negative[55] = 0x80;
    for control in environments() {
        assert_eq!(under(control, || above.to_bytes()), Ok(bytes));
        assert_eq!(under(control, || below.to_bytes()), Err(Refusal(14)));
        assert_eq!(under(control, || Card::read(&bytes)), Ok(above));
        assert_eq!(under(control, || Card::read(&negative)), Err(Refusal(14)));
    }
}

#[test]
fn a_call_leaves_the_environment_as_it_was() {
    let counts = black_box([1_u32, 2, 4]);
    let raw = under(DEFAULT, || {
        // SAFETY: the pointer and length are those of the array.
        black_box(unsafe { ffi::funnelivy_quality(counts.as_ptr(), counts.len(), MODE, 3) });
        mxcsr()
    });
    assert_ne!(raw, DEFAULT, "an inexact result leaves its flag");
    for control in environments() {
        for happened in [0, 0x3f] {
            let before = control | happened;
            let (answer, after) = under(before, || {
                let answer = black_box(sync_quality(&counts, MODE, 3));
                (answer, mxcsr())
            });
            assert!(answer.is_ok());
            assert_eq!(after, before);
        }
    }
}
