//! Funnelivy for Rust hosts: safe functions over the proved static library.
//!
//! [`Session`] owns the memory that a session is lent, and [`Card`] is an ended
//! one as the ledger keeps it. The functions beside them are the single calls. A
//! call that does not meet its conditions answers a [`Refusal`] and changes
//! nothing. Every call is made in the default float environment, whatever the
//! caller's is, and leaves the caller's as it was.

#![deny(unsafe_code)]

#[allow(unsafe_code)]
mod calls;
mod card;
pub mod ffi;
#[allow(unsafe_code)]
pub mod float_env;
pub mod machine;
mod refusal;
mod session;

pub use card::{Card, CARD_BYTES, NO_SLANT};
pub use recording::{End, Report};
pub use refusal::Refusal;
pub use session::{has_parity_tone, sample_store_length, Reading, Session, Work, MOST_FLAGS};

use refusal::check;

/// The best window of a ring of counts.
#[derive(Clone, Copy, Debug, PartialEq, Eq)]
pub struct BestWindow {
    /// The first place from which the sum is the largest.
    pub start: u64,
    pub sum: u64,
    /// How many windows have the largest sum; 1 unless several windows tie.
    pub windows: u64,
}

/// Flags of a search window (w) and of a picture at the working rate (P).
#[derive(Clone, Copy, Debug, PartialEq, Eq)]
pub struct Sizes {
    pub window: u64,
    pub picture: u64,
}

/// The sizes of a mode.
///
/// # Errors
/// Refusal 1.
pub fn sizes(mode: u8) -> Result<Sizes, Refusal> {
    let r = calls::sizes(mode);
    check(r.refusal)?;
    Ok(Sizes {
        window: r.window,
        picture: r.picture,
    })
}

/// `sync_pulse_columns`.
///
/// # Errors
/// Refusals 1 and 9.
pub fn sync_pulse_columns(mode: u8, n: u64) -> Result<u64, Refusal> {
    let r = calls::columns(mode, n);
    check(r.refusal)?;
    Ok(r.columns)
}

/// `best_pulse_window`.
///
/// # Errors
/// Refusal 9.
pub fn best_pulse_window(counts: &[u32], width: u64) -> Result<BestWindow, Refusal> {
    let r = calls::window(counts, width);
    check(r.refusal)?;
    Ok(BestWindow {
        start: r.start,
        sum: r.sum,
        windows: r.windows,
    })
}

/// `sync_quality`.
///
/// # Errors
/// Refusals 1 and 9.
pub fn sync_quality(counts: &[u32], mode: u8, lines: u64) -> Result<f32, Refusal> {
    let r = calls::quality(counts, mode, lines);
    check(r.refusal)?;
    Ok(r.quality)
}

/// `falling_edge_from_x_acc`.
///
/// # Errors
/// Refusal 9.
pub fn falling_edge(counts: &[u32]) -> Result<u64, Refusal> {
    let r = calls::edge(counts);
    check(r.refusal)?;
    Ok(r.columns)
}

/// `find_sync`. The work memory may hold anything.
///
/// # Errors
/// Refusals 1, 2, 5, 6 and 7.
pub fn find_sync(
    flags: &[u8],
    rate: f64,
    mode: u8,
    img: &mut [u8],
    votes: &mut [u16],
) -> Result<Report, Refusal> {
    let r = calls::find_sync(flags, rate, mode, img, votes);
    check(r.refusal)?;
    Ok(Report {
        rate: r.rate,
        slant: (r.has_slant != 0).then_some(r.slant),
        skip: r.skip,
        quality: r.quality,
    })
}

/// Fills 256 pairs for the transform: 16 windowed samples around `centre`.
///
/// # Errors
/// Refusals 4, 5 and 8.
pub fn sync_window(sound: &[f32], centre: u64, buffer: &mut [f32]) -> Result<(), Refusal> {
    check(calls::sync_window(sound, centre, buffer))
}

/// Whether 129 transformed pairs show the sync tone.
///
/// # Errors
/// Refusals 3, 6 and 8.
pub fn has_sync(spectrum: &[f32], shift_hz: f64) -> Result<bool, Refusal> {
    let r = calls::has_sync(spectrum, shift_hz);
    check(r.refusal)?;
    Ok(r.has_sync != 0)
}
