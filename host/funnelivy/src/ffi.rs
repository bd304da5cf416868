//! The C interface of the static library, as include/funnelivy.h has it, for
//! hosts that keep memory and records themselves. A call is made in the caller's
//! float environment: [`crate::float_env::with_default`] sets the right one.
//!
//! host/c/run compares the records and the functions declared here with the
//! header and with the Rattle source; the tests of this package make every call.

#[repr(C)]
#[derive(Clone, Copy, Debug, PartialEq)]
pub struct RawSession {
    pub anchor: u64,
    pub capacity: u64,
    pub taken: u64,
    pub evaluations: u64,
    pub streak: u64,
    pub position: u64,
    pub rate: f64,
    pub slant: f64,
    pub skip: i64,
    pub start_quality: f32,
    pub quality: f32,
    pub windows: u16,
    pub mode: u8,
    pub phase: u8,
    pub has_slant: u8,
}

#[repr(C)]
#[derive(Clone, Copy, Debug, PartialEq)]
pub struct RawSizes {
    pub refusal: u32,
    pub window: u64,
    pub picture: u64,
}

#[repr(C)]
#[derive(Clone, Copy, Debug, PartialEq)]
pub struct RawColumns {
    pub refusal: u32,
    pub columns: u64,
}

#[repr(C)]
#[derive(Clone, Copy, Debug, PartialEq)]
pub struct RawWindow {
    pub refusal: u32,
    pub start: u64,
    pub sum: u64,
    pub windows: u64,
}

#[repr(C)]
#[derive(Clone, Copy, Debug, PartialEq)]
pub struct RawQuality {
    pub refusal: u32,
    pub quality: f32,
}

#[repr(C)]
#[derive(Clone, Copy, Debug, PartialEq)]
pub struct RawReport {
    pub refusal: u32,
    pub has_slant: u32,
    pub rate: f64,
    pub slant: f64,
    pub skip: i64,
    pub quality: f32,
}

#[repr(C)]
#[derive(Clone, Copy, Debug, PartialEq)]
pub struct RawDecision {
    pub refusal: u32,
    pub has_sync: u32,
}

#[repr(C)]
#[derive(Clone, Copy, Debug, PartialEq)]
pub struct RawOpened {
    pub refusal: u32,
    pub session: RawSession,
}

#[repr(C)]
#[derive(Clone, Copy, Debug, PartialEq)]
pub struct RawFed {
    pub refusal: u32,
    pub taken: u64,
    pub session: RawSession,
}

#[repr(C)]
#[derive(Clone, Copy, Debug, PartialEq)]
pub struct RawReading {
    pub refusal: u32,
    pub end: u32,
    pub taken: u64,
    pub evaluations: u64,
    pub start: u64,
    pub rate: f64,
    pub slant: f64,
    pub skip: i64,
    pub start_quality: f32,
    pub quality: f32,
    pub has_slant: u32,
    pub windows: u32,
}

#[repr(C)]
#[derive(Clone, Copy, Debug, PartialEq)]
pub struct RawCard {
    pub taken: u64,
    pub evaluations: u64,
    pub start: u64,
    pub skip: i64,
    pub rate: f64,
    pub start_quality: f32,
    pub quality: f32,
    pub mode: u8,
    pub end: u8,
    pub slant: u8,
}

#[repr(C)]
#[derive(Clone, Copy, Debug, PartialEq)]
pub struct RawCardAnswer {
    pub refusal: u32,
    pub card: RawCard,
}

// Each pointer must be that of a slice of the length beside it, or null where
// that length is 0; what is written must not overlap any other argument.
extern "C" {
    pub fn funnelivy_sizes(mode: u8) -> RawSizes;
    pub fn funnelivy_columns(mode: u8, n: u64) -> RawColumns;
    pub fn funnelivy_window(counts: *const u32, counts_len: usize, width: u64) -> RawWindow;
    pub fn funnelivy_quality(
        counts: *const u32,
        counts_len: usize,
        mode: u8,
        lines: u64,
    ) -> RawQuality;
    pub fn funnelivy_edge(counts: *const u32, counts_len: usize) -> RawColumns;
    pub fn funnelivy_find_sync(
        flags: *const u8,
        flags_len: usize,
        rate: f64,
        mode: u8,
        img: *mut u8,
        img_len: usize,
        votes: *mut u16,
        votes_len: usize,
    ) -> RawReport;
    pub fn funnelivy_sync_window(
        sound: *const f32,
        sound_len: usize,
        centre: u64,
        buffer: *mut f32,
        buffer_len: usize,
    ) -> u32;
    pub fn funnelivy_has_sync(
        spectrum: *const f32,
        spectrum_len: usize,
        shift_hz: f64,
    ) -> RawDecision;
    pub fn funnelivy_open(
        mode: u8,
        anchor: u64,
        flag_store: *const u8,
        flag_store_len: usize,
        sample_store: *mut f32,
        sample_store_len: usize,
        first: *const f32,
        first_len: usize,
    ) -> RawOpened;
    pub fn funnelivy_feed(
        session: RawSession,
        flag_store: *mut u8,
        flag_store_len: usize,
        sample_store: *mut f32,
        sample_store_len: usize,
        img: *mut u8,
        img_len: usize,
        votes: *mut u16,
        votes_len: usize,
        flags: *const u8,
        flags_len: usize,
        samples: *const f32,
        samples_len: usize,
    ) -> RawFed;
    pub fn funnelivy_read(session: RawSession) -> RawReading;
    pub fn funnelivy_write_card(card: RawCard, out: *mut u8, out_len: usize) -> u32;
    pub fn funnelivy_read_card(bytes: *const u8, bytes_len: usize) -> RawCardAnswer;
    pub fn funnelivy_session_card(session: RawSession) -> RawCardAnswer;
}
