//! Ledger cards: random bytes, random fields, and records of sessions. What is
//! due is worked out here, from document 02, A.1, on bits alone.

use crate::lent::Lent;
use crate::live::Live;
use crate::record::{changed, random};
use crate::rng::Rng;
use crate::tally::Tally;
use crate::{due, ensure, Outcome};
use funnelivy::ffi::{self, RawCard, RawCardAnswer, RawSession};

const BYTES: usize = 56;
const NO_SLANT: u8 = 255;
/// Beyond it a skip is refused.
const FAR: u64 = 1 << 62;
const ONE: u32 = 0x3f80_0000;
const INFINITE: u64 = 0x7ff0_0000_0000_0000;

/// A card's fields as numbers, floats by their bits.
type Bits = (u8, u8, u64, u64, u64, u32, u64, u8, i64, u32);

fn bits(c: &RawCard) -> Bits {
    let (start_quality, quality) = (c.start_quality.to_bits(), c.quality.to_bits());
    (
        c.mode,
        c.end,
        c.taken,
        c.evaluations,
        c.start,
        start_quality,
        c.rate.to_bits(),
        c.slant,
        c.skip,
        quality,
    )
}

/// Any mode, end and slant index, and zeros.
fn bare(mode: u8, end: u8, slant: u8) -> RawCard {
    RawCard {
        taken: 0,
        evaluations: 0,
        start: 0,
        skip: 0,
        rate: 0.0,
        start_quality: 0.0,
        quality: 0.0,
        mode,
        end,
        slant,
    }
}

// ---- what is due

/// Whether the bits are those of an f32 from 0 to 1, -0.0 included.
fn part(bits: u32) -> bool {
    bits <= ONE || bits == 1 << 31
}

/// Refusal 14.
fn wrong(c: &RawCard) -> bool {
    let rate = c.rate.to_bits();
    let qualities = [c.start_quality.to_bits(), c.quality.to_bits()];
    let no_start = c.start == 0 && qualities[0] == 0;
    let no_report = rate == 0 && c.slant == NO_SLANT && c.skip == 0 && qualities[1] == 0;
    let by_end = match c.end {
        0 => (1..INFINITE).contains(&rate) && c.skip.unsigned_abs() <= FAR,
        1 => no_start && no_report,
        2 => no_report,
        _ => false,
    };
    c.mode > 15 || (240..NO_SLANT).contains(&c.slant) || qualities.map(part) != [true; 2] || !by_end
}

/// The card's bytes, whatever it holds.
pub fn encoded(c: &RawCard) -> Vec<u8> {
    let mut bytes = b"SSR\x01\x00".to_vec();
    bytes.extend([c.mode, c.end]);
    for number in [c.taken, c.evaluations, c.start] {
        bytes.extend(number.to_le_bytes());
    }
    bytes.extend(c.start_quality.to_bits().to_le_bytes());
    bytes.extend(c.rate.to_bits().to_le_bytes());
    bytes.push(c.slant);
    bytes.extend(c.skip.to_le_bytes());
    bytes.extend(c.quality.to_bits().to_le_bytes());
    bytes
}

/// The number in some little-endian bytes.
fn number(bytes: &[u8]) -> u64 {
    bytes.iter().rev().fold(0, |n, b| n << 8 | u64::from(*b))
}

fn decoded(bytes: &[u8]) -> RawCard {
    let float = |at| f32::from_bits(u32::try_from(number(&bytes[at..at + 4])).unwrap_or(0));
    RawCard {
        taken: number(&bytes[7..15]),
        evaluations: number(&bytes[15..23]),
        start: number(&bytes[23..31]),
        start_quality: float(31),
        rate: f64::from_bits(number(&bytes[35..43])),
        skip: number(&bytes[44..52]).cast_signed(),
        quality: float(52),
        ..bare(bytes[5], bytes[6], bytes[43])
    }
}

// ---- what is tried

fn any_f32(rng: &mut Rng) -> f32 {
    let patterns = [
        0,
        1 << 31,
        1,
        ONE,
        ONE + 1,
        0x7f80_0000,
        0x7fc0_0000,
        0xffc0_0001,
    ];
    match rng.below(4) {
        0 => f32::from_bits(rng.pick(&patterns)),
        1 => rng.wild(),
        _ => rng.sample().abs(),
    }
}

fn any_f64(rng: &mut Rng) -> f64 {
    let patterns = [
        0,
        1 << 63,
        1,
        INFINITE - 1,
        INFINITE,
        INFINITE + 1,
        u64::MAX,
    ];
    match rng.below(4) {
        0 => f64::from_bits(rng.pick(&patterns)),
        _ => rng.within(8_000.0, 14_000.0),
    }
}

fn any_skip(rng: &mut Rng) -> i64 {
    let about = rng.about(FAR).cast_signed();
    let size = rng.pick(&[about, about, FAR.cast_signed()]);
    if rng.once_in(2) {
        size
    } else {
        size.wrapping_neg()
    }
}

fn any_slant(rng: &mut Rng) -> u8 {
    match rng.below(4) {
        0 => rng.pick(&[0, 239, 240, 254]),
        1 => NO_SLANT,
        _ => rng.byte(),
    }
}

/// A card that is not refused.
fn sound(rng: &mut Rng) -> RawCard {
    let mut card = bare(rng.byte() % 16, rng.byte() % 3, NO_SLANT);
    card.taken = rng.about(1 << 24);
    card.evaluations = rng.bits();
    if card.end != 1 {
        card.start = rng.about(FAR);
        card.start_quality = rng.sample().abs();
    }
    if card.end == 0 {
        card.rate = f64::from_bits(1 + rng.bits() % (INFINITE - 1));
        card.skip = any_skip(rng) % FAR.cast_signed();
        card.quality = rng.sample().abs();
        let some = rng.byte() % 240;
        card.slant = rng.pick(&[some, NO_SLANT]);
    }
    card
}

/// A card with a few fields that may be anything.
fn wild(rng: &mut Rng) -> RawCard {
    let mut card = sound(rng);
    for _ in 0..rng.below(4) {
        match rng.below(8) {
            0 => card.mode = rng.mode(),
            1 => card.end = rng.pick(&[0, 1, 2, 3, 255]),
            2 => card.start = rng.bits(),
            3 => card.start_quality = any_f32(rng),
            4 => card.rate = any_f64(rng),
            5 => card.slant = any_slant(rng),
            6 => card.skip = any_skip(rng),
            _ => card.quality = any_f32(rng),
        }
    }
    card
}

/// A card whose floats are often so small that they are subnormal.
pub fn faint(rng: &mut Rng) -> RawCard {
    let mut card = wild(rng);
    if rng.once_in(2) {
        card.start_quality = f32::from_bits(rng.pick(&[1, 1 << 31 | 1]));
    }
    if rng.once_in(2) {
        card.quality = f32::from_bits(rng.pick(&[1, 1 << 31 | 1]));
    }
    if rng.once_in(2) {
        card.rate = f64::from_bits(rng.pick(&[1, 1 << 63 | 1]));
    }
    card
}

/// A struct of which every bit is random.
fn noise(rng: &mut Rng) -> RawCard {
    let bytes: Vec<u8> = (0..BYTES).map(|_| rng.byte()).collect();
    decoded(&bytes)
}

/// Mostly a card's length.
fn length(rng: &mut Rng) -> usize {
    match rng.below(8) {
        0 => rng.pick(&[0, 1, 55, 57, 65, 112]),
        1 => rng.below(200),
        _ => BYTES,
    }
}

// ---- the calls

fn case(end: u8, names: [&'static str; 3]) -> &'static str {
    names[usize::from(end).min(2)]
}

/// Makes the call in a marked buffer.
fn write(rng: &mut Rng, tally: &mut Tally, card: &RawCard, length: usize) -> Outcome {
    let held = rng.byte();
    let mut out = Lent::new(rng, &vec![held; length]);
    out.keep();
    // SAFETY: pointer and length are those of lent memory.
    let r = unsafe { ffi::funnelivy_write_card(*card, out.mut_ptr(), out.len()) };
    let causes = [(length != BYTES, 12), (wrong(card), 14)];
    tally.count("write_card", due(&causes), r)?;
    if r != 0 {
        return ensure(out.same(), "write_card: written where refused");
    }
    ensure(
        out.same_but(0..BYTES),
        "write_card: written beside the buffer",
    )?;
    ensure(out.holds(0, &encoded(card)), "write_card: other bytes")?;
    let ends = [
        "write_card: reported",
        "write_card: unfound",
        "write_card: cut short",
    ];
    tally.case(case(card.end, ends));
    let back = read(rng, tally, &encoded(card))?;
    let same = back.refusal == 0 && bits(&back.card) == bits(card);
    ensure(same, "write_card: what was written reads back otherwise")
}

/// Makes the call and checks the answer.
fn read(rng: &mut Rng, tally: &mut Tally, bytes: &[u8]) -> Result<RawCardAnswer, String> {
    let mut lent = Lent::new(rng, bytes);
    lent.keep();
    // SAFETY: pointer and length are those of lent memory.
    let r = unsafe { ffi::funnelivy_read_card(lent.ptr(), lent.len()) };
    let other = bytes.len() != BYTES;
    let causes = [
        (other, 12),
        (!bytes.starts_with(b"SSR\x01\x00"), 13),
        (!other && wrong(&decoded(bytes)), 14),
    ];
    tally.count("read_card", due(&causes), r.refusal)?;
    ensure(lent.same(), "read_card: the bytes changed")?;
    let held = if r.refusal == 0 {
        let ends = [
            "read_card: reported",
            "read_card: unfound",
            "read_card: cut short",
        ];
        tally.case(case(r.card.end, ends));
        decoded(bytes)
    } else {
        bare(0, 0, 0)
    };
    ensure(bits(&r.card) == bits(&held), "read_card: other fields")?;
    Ok(r)
}

/// Bytes that hold a card, and the same card written back.
fn read_and_write(rng: &mut Rng, tally: &mut Tally, bytes: &[u8]) -> Result<u32, String> {
    let r = read(rng, tally, bytes)?;
    if r.refusal == 0 {
        let mut out = [0; BYTES];
        // SAFETY: pointer and length are those of the array.
        let number = unsafe { ffi::funnelivy_write_card(r.card, out.as_mut_ptr(), BYTES) };
        ensure(
            number == 0 && out == bytes,
            "read_card: what was read writes back otherwise",
        )?;
    }
    Ok(r.refusal)
}

/// Random bytes of a random length, and a card with one to three bytes changed.
pub fn bytes(rng: &mut Rng, tally: &mut Tally) -> Outcome {
    let n = length(rng);
    let noise: Vec<u8> = (0..n).map(|_| rng.byte()).collect();
    read_and_write(rng, tally, &noise)?;
    let mut marked = noise;
    let head = marked.len().min(5);
    marked[..head].copy_from_slice(&b"SSR\x01\x00"[..head]);
    read_and_write(rng, tally, &marked)?;
    let mut card = encoded(&sound(rng));
    for _ in 0..=rng.below(3) {
        card[rng.below(BYTES)] = rng.byte();
    }
    if read_and_write(rng, tally, &card)? == 0 {
        tally.case("read_card: a card with bytes changed, still one");
    }
    card.resize(length(rng), rng.byte());
    read_and_write(rng, tally, &card).map(|_| ())
}

/// Fields that are right, a few that are not, or random bits.
pub fn fields(rng: &mut Rng, tally: &mut Tally) -> Outcome {
    let (right, some, all) = (sound(rng), wild(rng), noise(rng));
    ensure(!wrong(&right), "write_card: a sound card would be refused")?;
    for card in [right, some, all] {
        let n = length(rng);
        write(rng, tally, &card, n)?;
    }
    Ok(())
}

/// The index of a slant in degrees, 254 for one that is no angle of the table.
fn index(degrees: f64) -> u8 {
    let angle = |q: &u8| (30.0 + f64::from(*q) / 2.0).to_bits() == degrees.to_bits();
    (0..240).find(angle).unwrap_or(254)
}

/// The card that is due for an ended record.
fn card_of(record: &RawSession) -> RawCard {
    let end = match record.phase {
        2 => 0,
        4 => 2,
        _ => 1,
    };
    let mut card = bare(record.mode, end, NO_SLANT);
    card.taken = record.taken;
    card.evaluations = record.evaluations;
    if end != 1 {
        card.start = record.anchor.wrapping_add(record.position);
        card.start_quality = record.start_quality;
    }
    if end == 0 {
        card.rate = record.rate;
        card.skip = record.skip;
        card.quality = record.quality;
        if record.has_slant != 0 {
            card.slant = index(record.slant);
        }
    }
    card
}

/// Bit for bit, but that a NaN may be any.
fn alike(a: &RawCard, b: &RawCard) -> bool {
    let plain = |c: &RawCard| {
        let mut c = *c;
        let nan32 = |x: f32| if x.is_nan() { f32::NAN } else { x };
        c.start_quality = nan32(c.start_quality);
        c.quality = nan32(c.quality);
        c.rate = if c.rate.is_nan() { f64::NAN } else { c.rate };
        bits(&c)
    };
    plain(a) == plain(b)
}

/// Makes the call and checks the answer. Gives the card, where there is one.
fn of(tally: &mut Tally, record: &RawSession) -> Result<Option<RawCard>, String> {
    // SAFETY: a struct of numbers by value.
    let r = unsafe { ffi::funnelivy_session_card(*record) };
    let asked = due(&[(record.phase <= 1, 11)]);
    tally.count("session_card", asked, r.refusal)?;
    if r.refusal != 0 {
        let empty = bits(&r.card) == bits(&bare(0, 0, 0));
        ensure(empty, "session_card: numbers beside a refusal")?;
        return Ok(None);
    }
    let same = alike(&r.card, &card_of(record));
    ensure(same, "session_card: other fields than the record's")?;
    Ok(Some(r.card))
}

/// A session's own record: its card is taken by the writer and reads back.
pub fn own(rng: &mut Rng, tally: &mut Tally, live: &Live) -> Outcome {
    let Some(card) = of(tally, &live.record)? else {
        return Ok(());
    };
    ensure(!wrong(&card), "session_card: a session's card is refused")?;
    let ends = [
        "session_card: reported",
        "session_card: unfound",
        "session_card: cut short",
    ];
    tally.case(case(card.end, ends));
    write(rng, tally, &card, BYTES)
}

/// Records that no session returned, some with a slant of the table.
pub fn foreign(rng: &mut Rng, tally: &mut Tally, live: &Live) -> Outcome {
    let mut record = match rng.below(2) {
        0 => random(rng, live),
        _ => changed(rng, live.record),
    };
    if rng.once_in(2) {
        let angle = 30.0 + f64::from(rng.byte()) / 2.0;
        record.phase = rng.pick(&[2, 2, 2, 3, 4, 5, 255]);
        record.slant = rng.pick(&[angle, angle, angle + 0.25, angle.next_down(), -angle]);
    }
    let Some(card) = of(tally, &record)? else {
        return Ok(());
    };
    if card.slant == 254 {
        tally.case("session_card: of no session, with a slant of no index");
    }
    if wrong(&card) {
        tally.case("session_card: of no session, and refused by the writer");
    }
    write(rng, tally, &card, BYTES)
}
