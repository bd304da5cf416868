//! card_vectors: ledger cards that are read, changed byte by byte and written.

use crate::card::{lacked, Card, Cause, Field, LENGTH, NONE};
use crate::record::Records;
use crate::rng::Rng;
use crate::tally::Tally;

/// The three ends.
pub const ENDS: [(u8, &str); 3] = [(0, "reported"), (1, "unfound"), (2, "cut short")];

/// Every cause of 14 with its name.
pub const CAUSES: [(Cause, &str); 13] = [
    (Cause::Mode, "a mode above 15"),
    (Cause::End, "an end above 2"),
    (Cause::Slant, "q from 240 to 254"),
    (Cause::Filled(Field::Start), "a start filled"),
    (Cause::Filled(Field::StartQuality), "a start quality filled"),
    (Cause::Filled(Field::Rate), "a rate filled"),
    (Cause::Filled(Field::Slant), "a slant filled"),
    (Cause::Filled(Field::Skip), "a skip filled"),
    (Cause::Filled(Field::Quality), "an image quality filled"),
    (Cause::StartQuality, "a start quality outside 0..1"),
    (Cause::Quality, "an image quality outside 0..1"),
    (Cause::Rate, "a rate not finite and positive"),
    (Cause::Skip, "a skip beyond 2^62"),
];

/// A zero with a sign.
const MINUS_ZERO: u32 = 0x8000_0000;

/// Zeros, the smallest number, 1 and the next, infinities and NaNs, and
/// negative ones.
pub const SINGLES: [u32; 12] = [
    0,
    MINUS_ZERO,
    1,
    0x3f80_0000,
    0x3f80_0001,
    0x7f80_0000,
    0x7fc0_0000,
    0x7f80_0001,
    0xffc0_0000,
    0xff80_0000,
    0x8000_0001,
    0xbf80_0000,
];

/// The same as f64, the largest number, and negative ones.
pub const DOUBLES: [u64; 13] = [
    0,
    0x8000_0000_0000_0000,
    1,
    0x3ff0_0000_0000_0000,
    0x3ff0_0000_0000_0001,
    0x7ff0_0000_0000_0000,
    0x7ff8_0000_0000_0000,
    0x7ff0_0000_0000_0001,
    0xfff8_0000_0000_0000,
    0xfff0_0000_0000_0000,
    0x7fef_ffff_ffff_ffff,
    0x8000_0000_0000_0001,
    0xc0c5_8880_0000_0000,
];

/// Both ends of the skips, what lies beyond them, and a lower half of zeros.
pub const SKIPS: [i64; 10] = [
    0,
    1 << 62,
    -(1 << 62),
    (1 << 62) + 1,
    -(1 << 62) - 1,
    i64::MAX,
    i64::MIN,
    1 << 32,
    -(1 << 32),
    -1,
];

/// A card of this end with something in each byte that may hold something.
#[must_use]
pub fn full(end: u8) -> Card {
    lacking(Card {
        mode: 9,
        end,
        taken: 0x0807_0605_0403_0201,
        evaluations: 0x1817_1615_1413_1211,
        start: 0x2827_2625_2423_2221,
        start_quality: 0x3f31_3233,
        rate: 0x40c5_8881_4142_4344,
        slant: 121,
        skip: -0x0102_0304_0506_0708,
        quality: 0x3f51_5253,
    })
}

/// Without what the end lacks.
fn lacking(mut card: Card) -> Card {
    for &field in lacked(card.end) {
        match field {
            Field::Start => card.start = 0,
            Field::StartQuality => card.start_quality = 0,
            Field::Rate => card.rate = 0,
            Field::Slant => card.slant = NONE,
            Field::Skip => card.skip = 0,
            Field::Quality => card.quality = 0,
        }
    }
    card
}

fn any64(rng: &mut Rng) -> u64 {
    match rng.below(6) {
        0 => 0,
        1 => u64::MAX,
        2 => rng.below(1 << 24),
        _ => rng.bits(),
    }
}

fn some_quality(rng: &mut Rng) -> u32 {
    match rng.below(8) {
        0 => rng.pick(&[0, 0x8000_0000, 1, 0x3f80_0000]),
        _ => (rng.unit() as f32).to_bits(),
    }
}

/// A card of this end that is not refused.
pub fn sound(rng: &mut Rng, end: u8) -> Card {
    let rate = match rng.below(4) {
        0 => 1 + rng.below(0x7fef_ffff_ffff_ffff),
        _ => (8_000.0 + rng.unit() * 6_000.0).to_bits(),
    };
    let skip = match rng.below(4) {
        0 => rng.pick(&SKIPS[..3]),
        1 => rng.between(-(1 << 61), 1 << 61),
        _ => rng.between(-2_000, 2_000),
    };
    let slant = match rng.below(5) {
        0 => NONE,
        1 => rng.pick(&[0, 239]),
        _ => rng.below(240) as u8,
    };
    lacking(Card {
        mode: rng.below(16) as u8,
        end,
        taken: any64(rng),
        evaluations: any64(rng),
        start: any64(rng),
        start_quality: some_quality(rng),
        rate,
        slant,
        skip,
        quality: some_quality(rng),
    })
}

/// The card with one thing changed so that it may have this cause.
#[must_use]
pub fn spoiled(card: Card, cause: Cause) -> Vec<Card> {
    let bits = |change: fn(&mut Card, u64), values: &[u64]| {
        let one = |&value: &u64| {
            let mut other = card;
            change(&mut other, value);
            other
        };
        values.iter().map(one).collect()
    };
    let singles = SINGLES.map(u64::from);
    let skips = SKIPS.map(|skip| skip as u64);
    match cause {
        Cause::Mode => bits(|c, n| c.mode = n as u8, &[16, 17, 31, 128, 255]),
        Cause::End => bits(|c, n| c.end = n as u8, &[3, 4, 128, 255]),
        Cause::Slant => bits(|c, n| c.slant = n as u8, &[240, 247, 254]),
        Cause::Filled(Field::Start) => bits(|c, n| c.start = n, &[1, 1 << 32, 1 << 63, u64::MAX]),
        Cause::Filled(Field::Slant) => bits(|c, n| c.slant = n as u8, &[0, 120, 239]),
        Cause::Filled(Field::StartQuality) | Cause::StartQuality => {
            bits(|c, n| c.start_quality = n as u32, &singles)
        }
        Cause::Filled(Field::Rate) | Cause::Rate => bits(|c, n| c.rate = n, &DOUBLES),
        Cause::Filled(Field::Skip) | Cause::Skip => bits(|c, n| c.skip = n as i64, &skips),
        Cause::Filled(Field::Quality) | Cause::Quality => {
            bits(|c, n| c.quality = n as u32, &singles)
        }
    }
}

/// Another mark or version.
pub const HEADS: [(usize, u8); 6] = [(0, b's'), (1, b'R'), (2, 0), (3, 0), (3, 2), (4, 1)];

/// The bytes behind another mark or version.
#[must_use]
pub fn misheaded(bytes: &[u8], head: (usize, u8)) -> Vec<u8> {
    let mut bytes = bytes.to_vec();
    if let Some(byte) = bytes.get_mut(head.0) {
        *byte = head.1;
    }
    bytes
}

/// The bytes in another length.
#[must_use]
pub fn resized(bytes: &[u8], length: usize) -> Vec<u8> {
    let mut bytes = bytes.to_vec();
    bytes.resize(length, 0);
    bytes
}

struct Cards {
    records: Records,
    tally: Tally,
    /// The cards that were asked both ways.
    asked: Vec<Card>,
}

fn words(card: &Card) -> Vec<u8> {
    let numbers = card.numbers();
    numbers.iter().flat_map(|n| n.to_le_bytes()).collect()
}

/// The name of an end that there is.
fn end_name(card: &Card) -> &'static str {
    ENDS[usize::from(card.end)].1
}

impl Cards {
    /// Op 0. Gives the refusal, 0 for none.
    fn read(&mut self, bytes: &[u8]) -> u64 {
        let mut payload = bytes.to_vec();
        let refusal = match Card::read(bytes) {
            Ok(card) => {
                self.tally.note(&format!("read, {}", end_name(&card)), true);
                payload.extend(words(&card));
                0
            }
            Err(number) => {
                self.tally.note(&format!("read refused {number}"), true);
                number
            }
        };
        let a = [bytes.len() as u64, 0, 0];
        self.records.long(0, a, [refusal, 0, 0], &payload);
        refusal
    }

    /// Op 1: each byte of a card in all 256 values.
    fn changed(&mut self, card: &Card) {
        let bytes = card.bytes();
        for place in 0..LENGTH {
            let answer = |value: u8| {
                let mut other = bytes.clone();
                other[place] = value;
                Card::read(&other).err().unwrap_or(0) as u8
            };
            let answers: Vec<u8> = (0..=255).map(answer).collect();
            for (value, &answer) in answers.iter().enumerate() {
                let what = match answer {
                    0 => "still a card".to_string(),
                    number => format!("refused {number}"),
                };
                let class = format!("one byte of a card changed, {}: {what}", end_name(card));
                self.tally.note(&class, value != usize::from(bytes[place]));
            }
            let payload = [&bytes[..], &answers].concat();
            self.records.long(1, [place as u64, 0, 0], [0; 3], &payload);
        }
    }

    /// Op 2. Gives the refusal, 0 for none.
    fn write(&mut self, card: &Card, length: usize) -> u64 {
        let mut out = vec![0; length];
        let refusal = card.write(&mut out);
        let mut payload = words(card);
        if refusal == 0 {
            payload.extend(&out);
            let class = format!("written, {}", end_name(card));
            self.tally.note(&class, true);
        } else {
            self.tally.note(&format!("write refused {refusal}"), true);
        }
        let a = [length as u64, 0, 0];
        self.records.long(2, a, [refusal, 0, 0], &payload);
        refusal
    }

    /// A card both ways. Its bytes are read as they are, so that what the
    /// reader refuses is asked too.
    fn both(&mut self, card: &Card) {
        if self.asked.contains(card) {
            return;
        }
        self.asked.push(*card);
        self.note_floats(card);
        let read = self.read(&card.bytes());
        assert_eq!(read, self.write(card, LENGTH));
    }

    /// A card with one cause of 14, alone and beside 12 and 13.
    fn beside(&mut self, card: &Card, name: &str) {
        let bytes = card.bytes();
        for length in [0, 55, 57, 112] {
            assert_eq!(self.read(&resized(&bytes, length)), 12);
            assert_eq!(self.write(card, length.min(64)), 12);
        }
        self.tally.note(&format!("{name}, with 12"), true);
        for head in HEADS {
            assert_eq!(self.read(&misheaded(&bytes, head)), 13);
        }
        self.tally.note(&format!("{name}, with 13"), true);
        let short = misheaded(&bytes[..55], HEADS[0]);
        assert_eq!(self.read(&short), 12);
    }

    /// Each cause alone in each end that can have it alone.
    fn causes(&mut self) {
        for (cause, name) in CAUSES {
            for (end, _) in ENDS {
                let mut first = true;
                for card in spoiled(full(end), cause) {
                    self.both(&card);
                    if card.causes() != [cause] {
                        continue;
                    }
                    self.tally.note(&format!("{name}, alone"), true);
                    if first {
                        self.beside(&card, name);
                    }
                    first = false;
                }
            }
        }
    }

    /// Values at the ends of ranges, in every end of a session.
    fn edges(&mut self) {
        for (end, _) in ENDS {
            let card = full(end);
            for mode in [0, 15, 16, 255] {
                self.both(&Card { mode, ..card });
            }
            for other in [0, 1, 2, 3, 255] {
                self.both(&Card { end: other, ..card });
            }
            for slant in [0, 1, 239, 240, 254, NONE] {
                self.both(&Card { slant, ..card });
            }
            for number in [0, 1, u64::MAX] {
                self.both(&Card {
                    taken: number,
                    ..card
                });
                self.both(&Card {
                    evaluations: number,
                    ..card
                });
                self.both(&Card {
                    start: number,
                    ..card
                });
            }
            let bytes = card.bytes();
            for length in [0, 55, 57, 112] {
                self.read(&resized(&bytes, length));
                self.write(&card, length.min(64));
            }
            for head in HEADS {
                self.read(&misheaded(&bytes, head));
            }
            let mut swapped = bytes.clone();
            swapped.swap(3, 4);
            self.read(&swapped);
        }
    }

    /// Random cards: sound ones, ones with a cause or two, and random bytes.
    fn random(&mut self, rng: &mut Rng) {
        for (end, _) in ENDS {
            for _ in 0..60 {
                let card = sound(rng, end);
                assert_eq!(card.causes(), []);
                self.both(&card);
                let one = rng.pick(&CAUSES).0;
                let other = rng.pick(&spoiled(card, one));
                self.both(&other);
                let two = rng.pick(&CAUSES).0;
                let more = rng.pick(&spoiled(other, two));
                self.both(&more);
            }
        }
        for _ in 0..60 {
            let mut bytes: Vec<u8> = (0..LENGTH).map(|_| rng.bits() as u8).collect();
            self.read(&bytes);
            bytes[..5].copy_from_slice(&full(0).bytes()[..5]);
            bytes[5] %= 16;
            bytes[6] %= 3;
            self.read(&bytes);
        }
    }

    /// Signs of zero and NaNs, where a field is there and where it is not.
    fn note_floats(&mut self, card: &Card) {
        let causes = card.causes();
        let minus = [card.start_quality, card.quality].contains(&MINUS_ZERO);
        let alone = |field| causes == [Cause::Filled(field)];
        let filled = alone(Field::StartQuality) || alone(Field::Quality);
        let tally = &mut self.tally;
        for (end, name) in ENDS {
            let here = card.end == end;
            if end != 1 {
                let class = format!("-0.0 in a quality, {name}");
                tally.note(&class, here && minus && causes.is_empty());
            }
            if end != 0 {
                let class = format!("-0.0 in a quality that is lacked, {name}");
                tally.note(&class, here && minus && filled);
            }
            let nan = f32::from_bits(card.quality).is_nan();
            tally.note(&format!("a NaN in a quality, {name}"), here && nan);
        }
    }
}

/// The classes of cards.
fn tally() -> Tally {
    let mut tally = Tally::new("card", &[]);
    for (_, end) in ENDS {
        tally.announce(format!("read, {end}"));
        tally.announce(format!("written, {end}"));
        for what in ["still a card", "refused 13", "refused 14"] {
            tally.announce(format!("one byte of a card changed, {end}: {what}"));
        }
        tally.announce(format!("a NaN in a quality, {end}"));
    }
    for refusal in [12, 13, 14] {
        tally.announce(format!("read refused {refusal}"));
    }
    for refusal in [12, 14] {
        tally.announce(format!("write refused {refusal}"));
    }
    for (_, name) in CAUSES {
        for beside in ["alone", "with 12", "with 13"] {
            tally.announce(format!("{name}, {beside}"));
        }
    }
    for end in ["reported", "cut short"] {
        tally.announce(format!("-0.0 in a quality, {end}"));
    }
    for end in ["unfound", "cut short"] {
        tally.announce(format!("-0.0 in a quality that is lacked, {end}"));
    }
    tally
}

/// All vectors of cards.
///
/// # Errors
/// Classes that were not reached.
pub fn vectors() -> Result<Records, String> {
    let mut cards = Cards {
        records: Records::default(),
        tally: tally(),
        asked: Vec::new(),
    };
    for (end, _) in ENDS {
        cards.both(&full(end));
        cards.changed(&full(end));
    }
    cards.causes();
    cards.edges();
    cards.random(&mut Rng::new(13));
    cards.tally.report()?;
    Ok(cards.records)
}
