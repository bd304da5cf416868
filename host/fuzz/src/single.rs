//! The calls beside the session: sizes, counts, spectrum, `find_sync`.

use crate::lent::Lent;
use crate::rng::Rng;
use crate::tally::Tally;
use crate::work::Work;
use crate::{due, ensure, unsound, Outcome, MOST_FLAGS};
use funnelivy::ffi;

const MOST: u64 = 65_536;

pub fn sizes_and_columns(rng: &mut Rng, tally: &mut Tally) -> Outcome {
    let mode = rng.mode();
    // SAFETY: numbers only.
    let r = unsafe { ffi::funnelivy_sizes(mode) };
    tally.count("sizes", due(&[(mode > 15, 1)]), r.refusal)?;
    let bare = (r.window, r.picture) == (0, 0);
    ensure(bare == (r.refusal != 0), "sizes: numbers beside a refusal")?;
    let n = rng.about(MOST);
    // SAFETY: numbers only.
    let r = unsafe { ffi::funnelivy_columns(mode, n) };
    tally.count("columns", due(&[(mode > 15, 1), (n > MOST, 9)]), r.refusal)?;
    let held = if r.refusal == 0 { 1..=n.max(1) } else { 0..=0 };
    ensure(held.contains(&r.columns), "columns: outside 1 to n")
}

/// A count list, seldom a long one.
#[allow(clippy::cast_possible_truncation)]
fn counts(rng: &mut Rng) -> Vec<u32> {
    let n = match rng.below(16) {
        0 => rng.pick(&[65_535, 65_536, 65_537]),
        1 => 0,
        2..=8 => rng.pick(&[699, 700, 701]),
        _ => rng.below(40),
    };
    let most = rng.pick(&[0, 1, 250, 1_000_000, 1_000_001, u32::MAX]);
    let count = |_| (rng.bits() % (u64::from(most) + 1)) as u32;
    (0..n).map(count).collect()
}

/// The sum of each window of a ring, by the totals up to each place of the ring
/// laid out twice.
fn sums(counts: &[u32], width: u64) -> Vec<u64> {
    let (n, width) = (counts.len(), usize::try_from(width).unwrap_or(0));
    let mut totals = vec![0];
    for place in 0..2 * n {
        totals.push(totals[place] + u64::from(counts[place % n]));
    }
    let sum = |start: usize| totals[start + width] - totals[start];
    (0..n).map(sum).collect()
}

pub fn window(rng: &mut Rng, tally: &mut Tally) -> Outcome {
    let counts = counts(rng);
    let n = counts.len() as u64;
    let mut list = Lent::new(rng, &counts);
    let width = match rng.below(4) {
        0 => rng.about(n.max(1)),
        _ => rng.bits() % (n + 1),
    };
    list.keep();
    // SAFETY: pointer and length are those of the list.
    let r = unsafe { ffi::funnelivy_window(list.ptr(), list.len(), width) };
    let outside = n == 0 || n > MOST || width == 0 || width > n;
    tally.count("window", due(&[(outside, 9)]), r.refusal)?;
    ensure(list.same(), "window: the counts changed")?;
    if outside {
        let bare = (r.start, r.sum, r.windows) == (0, 0, 0);
        return ensure(bare, "window: numbers beside a refusal");
    }
    let sums = sums(&counts, width);
    let most = sums.iter().max().copied().unwrap_or(0);
    let with_most = (0..n).zip(&sums).filter(|(_, sum)| **sum == most);
    let starts: Vec<u64> = with_most.map(|(start, _)| start).collect();
    ensure(
        starts.first() == Some(&r.start) && r.sum == most,
        "window: not the first with the largest sum",
    )?;
    let windows = starts.len() as u64;
    ensure(r.windows == windows, "window: another count of windows")?;
    tally.case(match windows {
        1 => "window: one has the largest sum",
        all if all == n => "window: all tie",
        _ => "window: several tie",
    });
    Ok(())
}

pub fn quality(rng: &mut Rng, tally: &mut Tally) -> Outcome {
    let counts = counts(rng);
    let mut list = Lent::new(rng, &counts);
    let (mode, lines) = (rng.mode(), rng.about(MOST));
    list.keep();
    // SAFETY: pointer and length are those of the list.
    let r = unsafe { ffi::funnelivy_quality(list.ptr(), list.len(), mode, lines) };
    let outside = counts.len() as u64 > MOST || lines > MOST;
    tally.count("quality", due(&[(mode > 15, 1), (outside, 9)]), r.refusal)?;
    ensure(list.same(), "quality: the counts changed")?;
    let most = if r.refusal == 0 { 1.0 } else { 0.0 };
    ensure((0.0..=most).contains(&r.quality), "quality: outside 0 to 1")
}

pub fn edge(rng: &mut Rng, tally: &mut Tally) -> Outcome {
    let counts = counts(rng);
    let mut list = Lent::new(rng, &counts);
    list.keep();
    // SAFETY: pointer and length are those of the list.
    let r = unsafe { ffi::funnelivy_edge(list.ptr(), list.len()) };
    let outside = counts.len() != 700 || counts.iter().any(|c| *c > 1_000_000);
    tally.count("edge", due(&[(outside, 9)]), r.refusal)?;
    ensure(list.same(), "edge: the counts changed")?;
    let most = if outside { 0 } else { 350 };
    ensure(r.columns <= most, "edge: above 350")
}

pub fn sync_window(rng: &mut Rng, tally: &mut Tally) -> Outcome {
    let loud = rng.once_in(4);
    let n = rng.below(40);
    let mut sound: Vec<f32> = (0..n).map(|_| rng.sample()).collect();
    if loud && n > 0 {
        sound[rng.below(n)] = rng.wild();
    }
    let centre = match rng.below(4) {
        0 => rng.about(1 << 62),
        _ => rng.bits() % 50,
    };
    let length = rng.pick(&[512, 512, 512, 512, 511, 513, 0]);
    let lent = Lent::new(rng, &sound);
    let held = rng.wild();
    let mut buffer = Lent::new(rng, &vec![held; length]);
    buffer.keep();
    // SAFETY: each pointer and length are those of lent memory.
    let r = unsafe {
        ffi::funnelivy_sync_window(lent.ptr(), n, centre, buffer.mut_ptr(), buffer.len())
    };
    let causes = [
        (centre > 1 << 62, 4),
        (length != 512, 5),
        (sound.iter().any(|x| unsound(*x)), 8),
    ];
    tally.count("sync_window", due(&causes), r)?;
    if r != 0 {
        return ensure(buffer.same(), "sync_window: written where refused");
    }
    ensure(
        buffer.same_but(0..512),
        "sync_window: written beside the buffer",
    )?;
    ensure(
        buffer.holds(32, &[0.0; 480]),
        "sync_window: not 0 beyond 16 pairs",
    )
}

pub fn has_sync(rng: &mut Rng, tally: &mut Tally) -> Outcome {
    let n = rng.pick(&[258, 258, 258, 258, 257, 259, 0]);
    let finite = rng.once_in(2);
    let mut spectrum: Vec<f32> = (0..n).map(|_| rng.sample()).collect();
    if n > 0 && !finite {
        spectrum[rng.below(n)] = rng.wild();
    }
    if n > 55 && rng.once_in(2) {
        spectrum[54] = 100.0;
    }
    let shift = match rng.below(2) {
        0 => 0.0,
        _ => rng.within(-5_000.0, 5_000.0),
    };
    let lent = Lent::new(rng, &spectrum);
    // SAFETY: pointer and length are those of the spectrum.
    let r = unsafe { ffi::funnelivy_has_sync(lent.ptr(), lent.len(), shift) };
    let causes = [
        (!(-5_000.0..=5_000.0).contains(&shift), 3),
        (n != 258, 6),
        (spectrum.iter().any(|x| !x.is_finite()), 8),
    ];
    tally.count("has_sync", due(&causes), r.refusal)?;
    match (r.refusal, r.has_sync) {
        (0, 1) => tally.case("has_sync: yes"),
        (0, 0) => tally.case("has_sync: no"),
        (_, 0) => {}
        _ => return Err("has_sync: neither yes nor no".to_owned()),
    }
    Ok(())
}

/// Flags for `find_sync`: a short list, or one too long.
fn flags_to_find(rng: &mut Rng) -> Lent<u8> {
    if rng.once_in(16) {
        return Lent::zeros(MOST_FLAGS + 1);
    }
    let n = rng.pick(&[0, 1, 2_000, 9_000]);
    let every = 1 + rng.below(300);
    let mut flags: Vec<u8> = (0..n).map(|p| u8::from(p % every == 0)).collect();
    if n > 0 && rng.once_in(4) {
        flags[rng.below(n)] = rng.byte();
    }
    Lent::new(rng, &flags)
}

/// The number that is due.
fn find_refusal(flags: &Lent<u8>, mode: u8, rate: f64, work: &Work) -> u32 {
    let long = flags.len() > MOST_FLAGS;
    due(&[
        (mode > 15, 1),
        (!(8_000.0..=48_000.0).contains(&rate), 2),
        (work.short(), 5),
        (long, 6),
        (!long && flags.contents().iter().any(|f| *f > 1), 7),
    ])
}

pub fn find_sync(rng: &mut Rng, tally: &mut Tally) -> Outcome {
    let flags = flags_to_find(rng);
    let (mode, rate) = (rng.mode(), rng.within(8_000.0, 48_000.0));
    let mut work = Work::new(rng);
    work.keep();
    // SAFETY: each pointer and length are those of lent memory.
    let r = unsafe {
        ffi::funnelivy_find_sync(
            flags.ptr(),
            flags.len(),
            rate,
            mode,
            work.img.mut_ptr(),
            work.img.len(),
            work.votes.mut_ptr(),
            work.votes.len(),
        )
    };
    let asked = find_refusal(&flags, mode, rate, &work);
    tally.count("find_sync", asked, r.refusal)?;
    if r.refusal == 0 {
        ensure(
            r.has_slant <= 1 && r.rate.is_finite(),
            "find_sync: no report",
        )?;
        return ensure(work.cleared(), "find_sync: work memory not 0 in its extent");
    }
    let bare = (
        r.has_slant,
        r.rate.to_bits(),
        r.slant.to_bits(),
        r.skip,
        r.quality.to_bits(),
    );
    ensure(
        bare == (0, 0, 0, 0, 0),
        "find_sync: numbers beside a refusal",
    )?;
    ensure(work.same(), "find_sync: work memory written where refused")
}
