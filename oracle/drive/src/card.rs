//! The ledger card (02-change-requests.md, A.1): an ended session as 56 bytes.
//! The Rust has none, so this writer and this reader are the oracle's own,
//! made from the document alone. A float is kept as its bits: what a card is
//! refused for hangs on bits in one place and on values in another.

use crate::plain::Reading;
use slowrx::sync::access::{angle_degrees, ANGLES};

/// Bytes of a card.
pub const LENGTH: usize = 56;

/// What every card begins with.
const MARK: [u8; 3] = *b"SSR";

/// The 16 bits behind it.
const VERSION: u16 = 1;

/// The slant index that stands for none.
pub const NONE: u8 = 255;

/// The largest skip to either side.
const FAR: i64 = 1 << 62;

/// The fields of a card in their order.
#[derive(Clone, Copy, Debug, PartialEq, Eq)]
pub struct Card {
    /// The mode.
    pub mode: u8,
    /// 0 reported, 1 unfound, 2 cut short.
    pub end: u8,
    /// Flags taken.
    pub taken: u64,
    /// Evaluations made.
    pub evaluations: u64,
    /// The start.
    pub start: u64,
    /// Bits of its quality, an f32.
    pub start_quality: u32,
    /// Bits of the rate, an f64.
    pub rate: u64,
    /// The slant index.
    pub slant: u8,
    /// The skip.
    pub skip: i64,
    /// Bits of the image quality, an f32.
    pub quality: u32,
}

/// A field that some ends lack.
#[derive(Clone, Copy, Debug, PartialEq, Eq)]
pub enum Field {
    /// The start.
    Start,
    /// Its quality.
    StartQuality,
    /// The rate.
    Rate,
    /// The slant index.
    Slant,
    /// The skip.
    Skip,
    /// The image quality.
    Quality,
}

/// All of them.
pub const FIELDS: [Field; 6] = [
    Field::Start,
    Field::StartQuality,
    Field::Rate,
    Field::Slant,
    Field::Skip,
    Field::Quality,
];

/// A cause of refusal 14.
#[derive(Clone, Copy, Debug, PartialEq, Eq)]
pub enum Cause {
    /// A mode above 15.
    Mode,
    /// An end above 2.
    End,
    /// A slant index from 240 to 254.
    Slant,
    /// A filled field that the end lacks.
    Filled(Field),
    /// The start's quality outside 0..1.
    StartQuality,
    /// The image quality outside 0..1.
    Quality,
    /// A reported card's rate not finite and positive.
    Rate,
    /// A reported card's skip beyond 2^62 to either side.
    Skip,
}

/// The fields that an end lacks.
#[must_use]
pub fn lacked(end: u8) -> &'static [Field] {
    match end {
        1 => &FIELDS,
        2 => &FIELDS[2..],
        _ => &[],
    }
}

/// Whether an f32 lies outside 0..1. A NaN does, a zero of either sign does not.
fn outside(bits: u32) -> bool {
    !(0.0..=1.0).contains(&f32::from_bits(bits))
}

/// The first bytes of a list, which gets shorter.
fn next<const N: usize>(bytes: &mut &[u8]) -> Option<[u8; N]> {
    let (first, rest) = bytes.split_first_chunk()?;
    *bytes = rest;
    Some(*first)
}

impl Card {
    /// The card of a session in `mode` with this reading. The count of windows is
    /// not on it.
    ///
    /// # Panics
    /// If the slant is none of the Rust's angles.
    #[must_use]
    pub fn of(mode: usize, (end, numbers): Reading) -> Self {
        let [taken, evaluations, start, _, start_quality, rate, slant, skip, quality] = numbers;
        Self {
            mode: mode as u8,
            end: end as u8,
            taken,
            evaluations,
            start,
            start_quality: start_quality as u32,
            rate,
            slant: if end == 0 { index(slant) } else { NONE },
            skip: skip as i64,
            quality: quality as u32,
        }
    }

    /// Whether a field is filled: a bit is set, or the slant is not none.
    #[must_use]
    pub fn fills(&self, field: Field) -> bool {
        match field {
            Field::Start => self.start != 0,
            Field::StartQuality => self.start_quality != 0,
            Field::Rate => self.rate != 0,
            Field::Slant => self.slant != NONE,
            Field::Skip => self.skip != 0,
            Field::Quality => self.quality != 0,
        }
    }

    /// Every cause of 14 that the card has.
    #[must_use]
    pub fn causes(&self) -> Vec<Cause> {
        let rate = f64::from_bits(self.rate);
        let reported = self.end == 0;
        let far = self.skip > FAR || self.skip < -FAR;
        let single = [
            (self.mode > 15, Cause::Mode),
            (self.end > 2, Cause::End),
            ((240..=254).contains(&self.slant), Cause::Slant),
            (outside(self.start_quality), Cause::StartQuality),
            (outside(self.quality), Cause::Quality),
            (reported && !(rate.is_finite() && rate > 0.0), Cause::Rate),
            (reported && far, Cause::Skip),
        ];
        let filled = lacked(self.end).iter().filter(|&&field| self.fills(field));
        let single = single.iter().filter(|(is_there, _)| *is_there);
        single
            .map(|&(_, cause)| cause)
            .chain(filled.map(|&field| Cause::Filled(field)))
            .collect()
    }

    /// The bytes, whatever the fields hold.
    #[must_use]
    pub fn bytes(&self) -> Vec<u8> {
        let mut bytes = Vec::with_capacity(LENGTH);
        bytes.extend(MARK);
        bytes.extend(VERSION.to_le_bytes());
        bytes.extend([self.mode, self.end]);
        bytes.extend(self.taken.to_le_bytes());
        bytes.extend(self.evaluations.to_le_bytes());
        bytes.extend(self.start.to_le_bytes());
        bytes.extend(self.start_quality.to_le_bytes());
        bytes.extend(self.rate.to_le_bytes());
        bytes.push(self.slant);
        bytes.extend(self.skip.to_le_bytes());
        bytes.extend(self.quality.to_le_bytes());
        bytes
    }

    /// The fields of 56 bytes, whatever the mark and the fields hold.
    fn fields(mut bytes: &[u8]) -> Option<([u8; 3], u16, Self)> {
        let rest = &mut bytes;
        let mark = next(rest)?;
        let version = u16::from_le_bytes(next(rest)?);
        let card = Self {
            mode: u8::from_le_bytes(next(rest)?),
            end: u8::from_le_bytes(next(rest)?),
            taken: u64::from_le_bytes(next(rest)?),
            evaluations: u64::from_le_bytes(next(rest)?),
            start: u64::from_le_bytes(next(rest)?),
            start_quality: u32::from_le_bytes(next(rest)?),
            rate: u64::from_le_bytes(next(rest)?),
            slant: u8::from_le_bytes(next(rest)?),
            skip: i64::from_le_bytes(next(rest)?),
            quality: u32::from_le_bytes(next(rest)?),
        };
        rest.is_empty().then_some((mark, version, card))
    }

    /// Writes the card. Gives the refusal, 0 for none.
    pub fn write(&self, out: &mut [u8]) -> u64 {
        if out.len() != LENGTH {
            return 12;
        }
        if !self.causes().is_empty() {
            return 14;
        }
        out.copy_from_slice(&self.bytes());
        0
    }

    /// Reads a card.
    ///
    /// # Errors
    /// The refusal.
    pub fn read(bytes: &[u8]) -> Result<Self, u64> {
        let (mark, version, card) = Self::fields(bytes).ok_or(12_u64)?;
        if (mark, version) != (MARK, VERSION) {
            return Err(13);
        }
        if card.causes().is_empty() {
            Ok(card)
        } else {
            Err(14)
        }
    }

    /// The fields as ten numbers, in their order.
    #[must_use]
    pub fn numbers(&self) -> [u64; 10] {
        [
            self.mode.into(),
            self.end.into(),
            self.taken,
            self.evaluations,
            self.start,
            self.start_quality.into(),
            self.rate,
            self.slant.into(),
            self.skip as u64,
            self.quality.into(),
        ]
    }
}

/// The index of a slant, given as its bits or all ones for none.
fn index(slant: u64) -> u8 {
    if slant == u64::MAX {
        return NONE;
    }
    let at = (0..ANGLES).find(|&q| angle_degrees(q).to_bits() == slant);
    at.expect("the slant is one of the Rust's angles") as u8
}
