//! Ledger cards: an ended session in 56 bytes (document 02, A.1).

use crate::ffi::RawCard;
use crate::refusal::check;
use crate::{calls, End, Reading, Refusal, Report};
use recording::CardFields;

/// Length of a card.
pub const CARD_BYTES: usize = 56;
/// The slant index of a card without a slant.
pub const NO_SLANT: u8 = 255;
/// Slants that a picture can have.
const SLANTS: u8 = 240;

/// The fields of a card, in the order of its bytes. What an end lacks is zero,
/// and the slant index [`NO_SLANT`]. Fields may hold anything: [`Card::write`]
/// and [`Card::read`] refuse a card that no session can have.
#[derive(Clone, Copy, Debug, PartialEq)]
pub struct Card {
    pub mode: u8,
    /// 0 reported, 1 unfound, 2 cut short.
    pub end: u8,
    /// Flags taken.
    pub taken: u64,
    /// Evaluations made.
    pub evaluations: u64,
    /// Anchor plus position, where there is a start.
    pub start: u64,
    /// Where there is a start.
    pub start_quality: f32,
    /// The true sampling rate in Hz, of a report.
    pub rate: f64,
    /// The slant index q: 0 to 239 for 30 + q / 2 degrees, or [`NO_SLANT`].
    pub slant: u8,
    /// Samples from the start to the first line, of a report.
    pub skip: i64,
    /// Image quality, of a report.
    pub quality: f32,
}

impl Card {
    /// Writes the card's bytes. A buffer that is refused stays as it was.
    ///
    /// # Errors
    /// Refusals 12 (not [`CARD_BYTES`] long) and 14.
    pub fn write(&self, out: &mut [u8]) -> Result<(), Refusal> {
        check(calls::write_card((*self).into(), out))
    }

    /// The card's bytes.
    ///
    /// # Errors
    /// Refusal 14.
    pub fn to_bytes(&self) -> Result<[u8; CARD_BYTES], Refusal> {
        let mut bytes = [0; CARD_BYTES];
        self.write(&mut bytes)?;
        Ok(bytes)
    }

    /// The card that these bytes hold.
    ///
    /// # Errors
    /// Refusals 12, 13 and 14.
    pub fn read(bytes: &[u8]) -> Result<Self, Refusal> {
        let r = calls::read_card(bytes);
        check(r.refusal)?;
        Ok(r.card.into())
    }

    /// The slant in degrees, where the index is that of one.
    #[must_use]
    pub fn slant_degrees(&self) -> Option<f64> {
        (self.slant < SLANTS).then(|| 30.0 + f64::from(self.slant) / 2.0)
    }

    /// What the session's read gave, but that `windows` is 0: a card does not have
    /// it. `None` for an end above 2.
    #[must_use]
    pub fn reading(&self) -> Option<Reading> {
        let (start, start_quality) = (self.start, self.start_quality);
        let windows = 0;
        let end = match self.end {
            0 => End::Reported {
                start,
                windows,
                start_quality,
                report: Report {
                    rate: self.rate,
                    slant: self.slant_degrees(),
                    skip: self.skip,
                    quality: self.quality,
                },
            },
            1 => End::Unfound,
            2 => End::CutShort {
                start,
                windows,
                start_quality,
            },
            _ => return None,
        };
        Some(Reading {
            end,
            taken: self.taken,
            evaluations: self.evaluations,
        })
    }
}

impl From<Card> for RawCard {
    fn from(card: Card) -> Self {
        Self {
            taken: card.taken,
            evaluations: card.evaluations,
            start: card.start,
            skip: card.skip,
            rate: card.rate,
            start_quality: card.start_quality,
            quality: card.quality,
            mode: card.mode,
            end: card.end,
            slant: card.slant,
        }
    }
}

impl From<RawCard> for Card {
    fn from(raw: RawCard) -> Self {
        Self {
            mode: raw.mode,
            end: raw.end,
            taken: raw.taken,
            evaluations: raw.evaluations,
            start: raw.start,
            start_quality: raw.start_quality,
            rate: raw.rate,
            slant: raw.slant,
            skip: raw.skip,
            quality: raw.quality,
        }
    }
}

/// As recordings write it, floats by their bits.
impl From<Card> for CardFields {
    fn from(card: Card) -> Self {
        Self {
            mode: card.mode,
            end: card.end,
            taken: card.taken,
            evaluations: card.evaluations,
            start: card.start,
            start_quality: card.start_quality.to_bits(),
            rate: card.rate.to_bits(),
            slant: card.slant,
            skip: card.skip,
            quality: card.quality.to_bits(),
        }
    }
}

impl From<CardFields> for Card {
    fn from(fields: CardFields) -> Self {
        Self {
            mode: fields.mode,
            end: fields.end,
            taken: fields.taken,
            evaluations: fields.evaluations,
            start: fields.start,
            start_quality: f32::from_bits(fields.start_quality),
            rate: f64::from_bits(fields.rate),
            slant: fields.slant,
            skip: fields.skip,
            quality: f32::from_bits(fields.quality),
        }
    }
}
