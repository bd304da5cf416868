//! The calls of the C interface over slices, each in the default float
//! environment. `unsafe` is denied in the modules that use these, so that no
//! call is made in the caller's environment.

use crate::ffi::{
    self, RawCard, RawCardAnswer, RawColumns, RawDecision, RawFed, RawOpened, RawQuality,
    RawReading, RawReport, RawSession, RawSizes, RawWindow,
};
use crate::float_env::with_default;
use crate::Work;

pub fn sizes(mode: u8) -> RawSizes {
    // SAFETY: numbers only.
    with_default(|| unsafe { ffi::funnelivy_sizes(mode) })
}

pub fn columns(mode: u8, n: u64) -> RawColumns {
    // SAFETY: numbers only.
    with_default(|| unsafe { ffi::funnelivy_columns(mode, n) })
}

pub fn window(counts: &[u32], width: u64) -> RawWindow {
    // SAFETY: the pointer and length are those of a slice that outlives the call.
    with_default(|| unsafe { ffi::funnelivy_window(counts.as_ptr(), counts.len(), width) })
}

pub fn quality(counts: &[u32], mode: u8, lines: u64) -> RawQuality {
    // SAFETY: the pointer and length are those of a slice that outlives the call.
    with_default(|| unsafe { ffi::funnelivy_quality(counts.as_ptr(), counts.len(), mode, lines) })
}

pub fn edge(counts: &[u32]) -> RawColumns {
    // SAFETY: the pointer and length are those of a slice that outlives the call.
    with_default(|| unsafe { ffi::funnelivy_edge(counts.as_ptr(), counts.len()) })
}

pub fn find_sync(
    flags: &[u8],
    rate: f64,
    mode: u8,
    img: &mut [u8],
    votes: &mut [u16],
) -> RawReport {
    // SAFETY: each pointer and length is that of a slice that outlives the call,
    // and the two that are written are borrowed mutably.
    with_default(|| unsafe {
        ffi::funnelivy_find_sync(
            flags.as_ptr(),
            flags.len(),
            rate,
            mode,
            img.as_mut_ptr(),
            img.len(),
            votes.as_mut_ptr(),
            votes.len(),
        )
    })
}

pub fn sync_window(sound: &[f32], centre: u64, buffer: &mut [f32]) -> u32 {
    // SAFETY: each pointer and length is that of a slice that outlives the call,
    // and the one that is written is borrowed mutably.
    with_default(|| unsafe {
        ffi::funnelivy_sync_window(
            sound.as_ptr(),
            sound.len(),
            centre,
            buffer.as_mut_ptr(),
            buffer.len(),
        )
    })
}

pub fn has_sync(spectrum: &[f32], shift_hz: f64) -> RawDecision {
    // SAFETY: the pointer and length are those of a slice that outlives the call.
    with_default(|| unsafe { ffi::funnelivy_has_sync(spectrum.as_ptr(), spectrum.len(), shift_hz) })
}

pub fn open(
    mode: u8,
    anchor: u64,
    flag_store: &[u8],
    sample_store: &mut [f32],
    first: &[f32],
) -> RawOpened {
    // SAFETY: each pointer and length is that of a slice that outlives the call,
    // and the one that is written is borrowed mutably.
    with_default(|| unsafe {
        ffi::funnelivy_open(
            mode,
            anchor,
            flag_store.as_ptr(),
            flag_store.len(),
            sample_store.as_mut_ptr(),
            sample_store.len(),
            first.as_ptr(),
            first.len(),
        )
    })
}

pub fn feed(
    session: RawSession,
    flag_store: &mut [u8],
    sample_store: &mut [f32],
    work: &mut Work,
    flags: &[u8],
    samples: &[f32],
) -> RawFed {
    // SAFETY: each pointer and length is that of a slice that outlives the call;
    // those that are written are borrowed mutably, so they do not overlap.
    with_default(|| unsafe {
        ffi::funnelivy_feed(
            session,
            flag_store.as_mut_ptr(),
            flag_store.len(),
            sample_store.as_mut_ptr(),
            sample_store.len(),
            work.img.as_mut_ptr(),
            work.img.len(),
            work.votes.as_mut_ptr(),
            work.votes.len(),
            flags.as_ptr(),
            flags.len(),
            samples.as_ptr(),
            samples.len(),
        )
    })
}

pub fn read(session: RawSession) -> RawReading {
    // SAFETY: a struct of numbers by value.
    with_default(|| unsafe { ffi::funnelivy_read(session) })
}

pub fn write_card(card: RawCard, out: &mut [u8]) -> u32 {
    // SAFETY: the pointer and length are those of a slice that outlives the call
    // and is borrowed mutably.
    with_default(|| unsafe { ffi::funnelivy_write_card(card, out.as_mut_ptr(), out.len()) })
}

pub fn read_card(bytes: &[u8]) -> RawCardAnswer {
    // SAFETY: the pointer and length are those of a slice that outlives the call.
    with_default(|| unsafe { ffi::funnelivy_read_card(bytes.as_ptr(), bytes.len()) })
}

pub fn session_card(session: RawSession) -> RawCardAnswer {
    // SAFETY: a struct of numbers by value.
    with_default(|| unsafe { ffi::funnelivy_session_card(session) })
}
