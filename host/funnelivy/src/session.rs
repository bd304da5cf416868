//! A session with the memory that it is lent.

use crate::ffi::RawSession;
use crate::refusal::check;
use crate::{calls, Card, End, Refusal, Report};

/// Bytes of the drawn image and cells of the vote counts.
const IMAGE_BYTES: usize = 441_000;
const VOTE_CELLS: usize = 144_000;
/// Longest flag store and flag list.
pub const MOST_FLAGS: usize = 16_777_216;

/// Whether a tone tells the parity of a mode's lines: Robot 24 and 36, whose
/// sessions keep their samples.
#[must_use]
pub fn has_parity_tone(mode: u8) -> bool {
    mode == 3 || mode == 4
}

/// Places that the sample store needs beside a flag store of `capacity`. Where
/// they cannot be counted, none is long enough.
#[must_use]
pub fn sample_store_length(mode: u8, capacity: usize) -> usize {
    if has_parity_tone(mode) {
        capacity.saturating_mul(4).saturating_add(4)
    } else {
        0
    }
}

/// The lengths of the stores that are made where these are asked for, so that
/// a call is refused before much is allocated. A flag store that is too long
/// is refused as an empty one is, and a sample store with one place more than
/// the mode needs is answered as any longer one.
fn made(mode: u8, (flags, samples): (usize, usize)) -> (usize, usize) {
    if flags > MOST_FLAGS {
        return (0, 0);
    }
    (flags, samples.min(sample_store_length(mode, flags) + 1))
}

/// A copy of a store in another length: padded, or cut.
fn lent<T: Copy + Default>(store: &[T], length: usize) -> Vec<T> {
    let mut copy = store[..length.min(store.len())].to_vec();
    copy.resize(length, T::default());
    copy
}

/// Work memory of `find_sync`. One serves any number of sessions in turn.
pub struct Work {
    pub img: Vec<u8>,
    pub votes: Vec<u16>,
}

impl Work {
    /// Memory of the length that is asked for.
    #[must_use]
    pub fn new() -> Self {
        Self {
            img: vec![0; IMAGE_BYTES],
            votes: vec![0; VOTE_CELLS],
        }
    }
}

impl Default for Work {
    fn default() -> Self {
        Self::new()
    }
}

/// What read gives.
#[derive(Clone, Copy, Debug, PartialEq)]
pub struct Reading {
    pub end: End,
    /// Flags taken.
    pub taken: u64,
    /// Evaluations made.
    pub evaluations: u64,
}

/// A search for one picture of a known mode.
pub struct Session {
    raw: RawSession,
    flag_store: Vec<u8>,
    sample_store: Vec<f32>,
}

impl Session {
    /// Opens a session. `capacity` is the length of the flag store; the sample
    /// store of Robot 24 and 36 is made to fit. Above [`MOST_FLAGS`] nothing is
    /// allocated.
    ///
    /// # Errors
    /// Refusals 1, 4, 5, 6 and 8.
    pub fn open(mode: u8, anchor: u64, capacity: usize, first: &[f32]) -> Result<Self, Refusal> {
        let samples = sample_store_length(mode, capacity);
        Self::open_lent(mode, anchor, (capacity, samples), first)
    }

    /// Opens over a flag store and a sample store of these lengths, as a host
    /// might lend them.
    ///
    /// # Errors
    /// Refusals 1, 4, 5, 6 and 8.
    pub fn open_lent(
        mode: u8,
        anchor: u64,
        lengths: (usize, usize),
        first: &[f32],
    ) -> Result<Self, Refusal> {
        let (flags, samples) = made(mode, lengths);
        Self::open_with(mode, anchor, vec![0; flags], vec![0.0; samples], first)
    }

    /// Opens a session over stores of the caller's.
    ///
    /// # Errors
    /// Refusals 1, 4, 5, 6 and 8.
    pub fn open_with(
        mode: u8,
        anchor: u64,
        flag_store: Vec<u8>,
        mut sample_store: Vec<f32>,
        first: &[f32],
    ) -> Result<Self, Refusal> {
        let r = calls::open(mode, anchor, &flag_store, &mut sample_store, first);
        check(r.refusal)?;
        Ok(Self {
            raw: r.session,
            flag_store,
            sample_store,
        })
    }

    /// Feeds flags, each with four samples: how many were taken.
    ///
    /// # Errors
    /// Refusals 5, 6, 7, 8 and 10.
    pub fn feed(&mut self, flags: &[u8], samples: &[f32], work: &mut Work) -> Result<u64, Refusal> {
        let r = calls::feed(
            self.raw,
            &mut self.flag_store,
            &mut self.sample_store,
            work,
            flags,
            samples,
        );
        check(r.refusal)?;
        self.raw = r.session;
        Ok(r.taken)
    }

    /// Feeds over a flag store and a sample store of these lengths, as a host
    /// might lend them: the session's own, padded or cut. Only a flag store of
    /// the session's own length is not refused. A sample store may be longer,
    /// and of any length where the mode has no parity tone; after the call the
    /// session has its own again.
    ///
    /// # Errors
    /// Refusals 5, 6, 7, 8 and 10.
    pub fn feed_lent(
        &mut self,
        lengths: (usize, usize),
        flags: &[u8],
        samples: &[f32],
        work: &mut Work,
    ) -> Result<u64, Refusal> {
        let own = self.store_lengths();
        let (flags_lent, samples_lent) = made(self.raw.mode, lengths);
        if lengths == own || (flags_lent, samples_lent) == own {
            return self.feed(flags, samples, work);
        }
        let mut over = Self {
            raw: self.raw,
            flag_store: lent(&self.flag_store, flags_lent),
            sample_store: lent(&self.sample_store, samples_lent),
        };
        let taken = over.feed(flags, samples, work)?;
        over.sample_store = lent(&over.sample_store, own.1);
        *self = over;
        Ok(taken)
    }

    /// The session's end.
    ///
    /// # Errors
    /// Refusal 11 while it has not ended.
    pub fn read(&self) -> Result<Reading, Refusal> {
        let r = calls::read(self.raw);
        check(r.refusal)?;
        let end = match r.end {
            0 => End::Reported {
                start: r.start,
                windows: r.windows.into(),
                start_quality: r.start_quality,
                report: Report {
                    rate: r.rate,
                    slant: (r.has_slant != 0).then_some(r.slant),
                    skip: r.skip,
                    quality: r.quality,
                },
            },
            1 => End::Unfound,
            _ => End::CutShort {
                start: r.start,
                windows: r.windows.into(),
                start_quality: r.start_quality,
            },
        };
        Ok(Reading {
            end,
            taken: r.taken,
            evaluations: r.evaluations,
        })
    }

    /// The session's ledger card.
    ///
    /// # Errors
    /// Refusal 11 while it has not ended.
    pub fn card(&self) -> Result<Card, Refusal> {
        let r = calls::session_card(self.raw);
        check(r.refusal)?;
        Ok(r.card.into())
    }

    /// Flags taken so far.
    #[must_use]
    pub fn taken(&self) -> u64 {
        self.raw.taken
    }

    /// Lengths of the flag store and the sample store.
    #[must_use]
    pub fn store_lengths(&self) -> (usize, usize) {
        (self.flag_store.len(), self.sample_store.len())
    }
}
