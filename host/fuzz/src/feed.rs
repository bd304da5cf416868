//! Feed, on records that a session returned and on others.

use crate::lent::{Lent, Number};
use crate::live::{unopened, Live};
use crate::record::{changed, random, read};
use crate::rng::Rng;
use crate::tally::Tally;
use crate::work::Work;
use crate::{due, ensure, unsound, Outcome, MOST_FLAGS};
use funnelivy::ffi::{self, RawFed, RawSession};
use funnelivy::{has_parity_tone, sample_store_length};

/// What a feed brings.
pub struct Piece {
    flags: Lent<u8>,
    samples: Lent<f32>,
}

impl Piece {
    /// The next flags of a sound, with four samples each.
    pub fn next(rng: &mut Rng, live: &Live) -> Self {
        let at = usize::try_from(live.record.taken)
            .unwrap_or(0)
            .min(live.sound.len());
        let left = live.sound.len() - at;
        let n = rng
            .pick(&[0, 1, 2, 63, 64, 65, 5_000, 30_000, usize::MAX])
            .min(left);
        let samples: Vec<f32> = (0..4 * n).map(|_| rng.sample()).collect();
        Self {
            flags: Lent::new(rng, &live.sound[at..at + n]),
            samples: Lent::new(rng, &samples),
        }
    }

    /// A piece that is often outside its limits.
    pub fn wild(rng: &mut Rng) -> Self {
        if rng.once_in(32) {
            return Self {
                flags: Lent::zeros(MOST_FLAGS + 1),
                samples: Lent::zeros(0),
            };
        }
        let n = rng.below(200);
        let mut flags: Vec<u8> = (0..n).map(|_| rng.byte() & 1).collect();
        let mut samples: Vec<f32> = (0..4 * n).map(|_| rng.sample()).collect();
        if n > 0 && rng.once_in(4) {
            flags[rng.below(n)] = rng.byte();
        }
        if n > 0 && rng.once_in(4) {
            samples[rng.below(4 * n)] = rng.wild();
        }
        if rng.once_in(4) {
            samples.resize(rng.pick(&[4 * n + 1, (4 * n).saturating_sub(1), n, 0]), 0.0);
        }
        Self {
            flags: Lent::new(rng, &flags),
            samples: Lent::new(rng, &samples),
        }
    }
}

/// The number that is due, from the record's own fields.
fn refusal(record: &RawSession, live: &Live, work: &Work, piece: &Piece) -> u32 {
    let (flags, samples) = (piece.flags.len(), piece.samples.len());
    let store = live.flags.len() as u64;
    let short = live.samples.len() < sample_store_length(record.mode, live.flags.len());
    due(&[
        (record.capacity != store || short || work.short(), 5),
        (flags > MOST_FLAGS || samples != 4 * flags, 6),
        (
            flags <= MOST_FLAGS && piece.flags.contents().iter().any(|f| *f > 1),
            7,
        ),
        (piece.samples.contents().iter().any(|x| unsound(*x)), 8),
        (record.phase > 1, 10),
    ])
}

fn call(record: RawSession, live: &mut Live, work: &mut Work, piece: &Piece) -> RawFed {
    let (flag_store, sample_store) = (live.flags.len(), live.samples.len());
    // SAFETY: each pointer and length are those of lent memory.
    unsafe {
        ffi::funnelivy_feed(
            record,
            live.flags.mut_ptr(),
            flag_store,
            live.samples.mut_ptr(),
            sample_store,
            work.img.mut_ptr(),
            work.img.len(),
            work.votes.mut_ptr(),
            work.votes.len(),
            piece.flags.ptr(),
            piece.flags.len(),
            piece.samples.ptr(),
            piece.samples.len(),
        )
    }
}

/// Whether what was taken, and nothing else, is in the stores.
fn stored(record: &RawSession, live: &Live, piece: &Piece, taken: usize) -> Outcome {
    if taken == 0 {
        let same = live.flags.same() && live.samples.same();
        return ensure(same, "feed: nothing was taken, and a store changed");
    }
    let at = usize::try_from(record.taken).unwrap_or(usize::MAX);
    ensure(
        taken <= piece.flags.len() && taken <= live.flags.len() && at <= live.flags.len() - taken,
        "feed: more taken than there is",
    )?;
    let flags = &piece.flags.contents()[..taken];
    ensure(
        live.flags.same_but(at..at + taken),
        "feed: other flags were written",
    )?;
    ensure(live.flags.holds(at, flags), "feed: not the flags taken")?;
    if !has_parity_tone(record.mode) {
        return ensure(live.samples.same(), "feed: the sample store was touched");
    }
    let (from, to) = (4 * at + 4, 4 * (at + taken) + 4);
    ensure(
        live.samples.same_but(from..to),
        "feed: other samples were written",
    )?;
    let samples = &piece.samples.contents()[..4 * taken];
    ensure(
        live.samples.holds(from, samples),
        "feed: not the samples taken",
    )
}

/// Makes the call with this record and checks what every answer has in common.
fn feed(
    tally: &mut Tally,
    record: RawSession,
    live: &mut Live,
    work: &mut Work,
    piece: &Piece,
) -> Result<RawFed, String> {
    let asked = refusal(&record, live, work, piece);
    live.flags.keep();
    live.samples.keep();
    work.keep();
    let r = call(record, live, work, piece);
    tally.count("feed", asked, r.refusal)?;
    let taken = usize::try_from(r.taken).unwrap_or(usize::MAX);
    stored(&record, live, piece, taken)?;
    if r.refusal == 0 {
        ensure(
            work.same() || work.cleared(),
            "feed: work memory neither 0 nor unchanged",
        )?;
        return Ok(r);
    }
    ensure(
        taken == 0 && r.session == unopened(),
        "feed: numbers beside a refusal",
    )?;
    ensure(work.same(), "feed: work memory written where refused")?;
    Ok(r)
}

/// Whether a session has a count of windows where it has a start, and the same from
/// the start on.
fn counted(tally: &mut Tally, record: &RawSession, next: &RawSession) -> Outcome {
    let has_start = |record: &RawSession| matches!(record.phase, 1 | 2 | 4);
    let due = if has_start(record) {
        record.windows..=record.windows
    } else if has_start(next) {
        tally.case(if next.windows > 1 {
            "feed: a start, and windows tie"
        } else {
            "feed: a start, and no windows tie"
        });
        1..=700
    } else {
        0..=0
    };
    ensure(
        due.contains(&next.windows),
        "feed: another count of windows",
    )
}

/// A session's own record and its next flags.
pub fn own(rng: &mut Rng, tally: &mut Tally, live: &mut Live) -> Outcome {
    let mut work = Work::new(rng);
    let piece = Piece::next(rng, live);
    let record = live.record;
    let r = feed(tally, record, live, &mut work, &piece)?;
    if r.refusal != 0 {
        return Ok(());
    }
    let next = r.session;
    let ended = next.phase > 1;
    let whole = r.taken == piece.flags.len() as u64;
    ensure(
        next.taken == record.taken + r.taken && (whole || ended),
        "feed: flags were left",
    )?;
    ensure(
        (next.mode, next.anchor, next.capacity) == (record.mode, record.anchor, record.capacity),
        "feed: mode, anchor or F changed",
    )?;
    counted(tally, &record, &next)?;
    let worked = if next.phase == 2 {
        work.cleared()
    } else {
        work.same()
    };
    ensure(worked, "feed: work memory not as the phase has it")?;
    live.record = next;
    Ok(())
}

/// A session's own record with a piece that is often outside its limits, on a
/// copy of the stores.
pub fn own_wild(rng: &mut Rng, tally: &mut Tally, live: &Live) -> Outcome {
    let piece = Piece::wild(rng);
    on_copy(rng, tally, live.record, live, &piece).map(|_| ())
}

/// A copy of a store, now and then of one cell less or more.
fn one_off<T: Number>(rng: &mut Rng, store: &Lent<T>) -> Lent<T> {
    let mut contents = store.contents().to_vec();
    match rng.below(16) {
        0 => contents.truncate(store.len().saturating_sub(1)),
        1 => contents.push(T::default()),
        _ => {}
    }
    Lent::new(rng, &contents)
}

/// A feed on a copy of the stores, so that the session goes on as it was.
fn on_copy(
    rng: &mut Rng,
    tally: &mut Tally,
    record: RawSession,
    live: &Live,
    piece: &Piece,
) -> Result<RawFed, String> {
    let mut copy = Live {
        record,
        flags: one_off(rng, &live.flags),
        samples: one_off(rng, &live.samples),
        sound: Vec::new(),
    };
    let mut work = Work::new(rng);
    feed(tally, record, &mut copy, &mut work, piece)
}

/// Records that are not the session's own, with its stores.
pub fn foreign(rng: &mut Rng, tally: &mut Tally, live: &Live, other: &Live) -> Outcome {
    let record = match rng.below(3) {
        0 => {
            tally.case("feed: a random record");
            random(rng, live)
        }
        1 => {
            tally.case("feed: a record with a field changed");
            changed(rng, live.record)
        }
        _ => {
            tally.case("feed: another session's record");
            other.record
        }
    };
    let piece = match rng.below(4) {
        0 => Piece::wild(rng),
        _ => Piece::next(rng, live),
    };
    let r = on_copy(rng, tally, record, live, &piece)?;
    if r.taken > 0 {
        tally.case("feed: a record not its own, some flags taken");
    }
    read(tally, record)
}
