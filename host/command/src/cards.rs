//! Files of ledger cards: 56 bytes each, one behind the other.

use crate::modes::MODE_NAMES;
use crate::report_in_words;
use funnelivy::{Card, End, CARD_BYTES};
use std::fs::{File, OpenOptions};
use std::io::Write;
use std::path::Path;

/// The cards in the bytes of a file, in order.
///
/// # Errors
/// The first that is refused: its number, from 1, and why.
fn cards_in(bytes: &[u8]) -> impl Iterator<Item = Result<Card, String>> + '_ {
    let numbered = bytes.chunks(CARD_BYTES).zip(1..);
    numbered.map(|(card, number)| Card::read(card).map_err(|r| format!("card {number}: {r}")))
}

/// A file to append cards to, made if it is missing.
pub struct Appending<'a> {
    file: File,
    path: &'a Path,
}

impl<'a> Appending<'a> {
    /// Opens the file.
    ///
    /// # Errors
    /// A file that cannot be written, or that holds something else than cards.
    pub fn open(path: &'a Path) -> Result<Self, String> {
        let cannot = |e| format!("{} cannot be written: {e}", path.display());
        let mut options = OpenOptions::new();
        let file = options
            .append(true)
            .create(true)
            .open(path)
            .map_err(cannot)?;
        // A pipe or a terminal holds nothing.
        if file.metadata().map_err(cannot)?.is_file() {
            for card in cards_in(&bytes_of(path)?) {
                card.map_err(|e| format!("{}: {e}", path.display()))?;
            }
        }
        Ok(Self { file, path })
    }

    /// Appends the cards, in one piece.
    ///
    /// # Errors
    /// A file that cannot be written.
    pub fn append(&mut self, cards: impl Iterator<Item = Card>) -> Result<(), String> {
        let mut bytes = Vec::new();
        for card in cards {
            bytes.extend(card.to_bytes().map_err(|r| r.to_string())?);
        }
        let written = self.file.write_all(&bytes);
        written.map_err(|e| format!("{} cannot be written: {e}", self.path.display()))
    }
}

fn bytes_of(path: &Path) -> Result<Vec<u8>, String> {
    std::fs::read(path).map_err(|e| format!("{} cannot be read: {e}", path.display()))
}

/// A card as text: its fields in order, what its end lacks left out.
fn line(number: usize, card: &Card) -> String {
    let mode = MODE_NAMES.get(usize::from(card.mode)).unwrap_or(&"?");
    let counts = format!("taken {}, evaluations {}", card.taken, card.evaluations);
    let start = format!(
        "start {}, start quality {:.3}",
        card.start, card.start_quality
    );
    let rest = match card.reading().map(|r| r.end) {
        Some(End::Reported { report, .. }) => {
            format!("reported, {counts}, {start}, {}", report_in_words(&report))
        }
        Some(End::CutShort { .. }) => format!("cut short, {counts}, {start}"),
        Some(End::Unfound) | None => format!("unfound, {counts}"),
    };
    format!("card {number}: {mode}, {rest}")
}

/// Prints the cards of a file, a line each, up to one that is refused.
///
/// # Errors
/// A file that cannot be read, or a card that is refused.
pub fn print(path: &Path) -> Result<(), String> {
    for (card, number) in cards_in(&bytes_of(path)?).zip(1..) {
        let card = card.map_err(|e| format!("{}: {e}", path.display()))?;
        println!("{}", line(number, &card));
    }
    Ok(())
}

#[cfg(test)]
mod tests {
    use super::*;

    const REPORTED: Card = Card {
        mode: 4,
        end: 0,
        taken: 22_588,
        evaluations: 3,
        start: 1_843,
        start_quality: 0.75,
        rate: 11_025.0,
        slant: 121,
        skip: -158,
        quality: 0.5,
    };
    const UNFOUND: Card = Card {
        mode: 9,
        end: 1,
        taken: 311_712,
        evaluations: 4_723,
        start: 0,
        start_quality: 0.0,
        rate: 0.0,
        slant: 255,
        skip: 0,
        quality: 0.0,
    };
    const CUT_SHORT: Card = Card {
        mode: 15,
        end: 2,
        start: u64::MAX,
        start_quality: 1.0,
        ..UNFOUND
    };

    #[test]
    fn a_line_for_each_end() {
        assert_eq!(
            line(1, &REPORTED),
            "card 1: robot36, reported, taken 22588, evaluations 3, start 1843, \
             start quality 0.750, rate 11025.000 Hz, slant 90.5°, skip -158, quality 0.500"
        );
        let upright = Card {
            slant: 255,
            ..REPORTED
        };
        assert!(line(1, &upright).contains(" Hz, slant none, skip "));
        assert_eq!(
            line(20, &UNFOUND),
            "card 20: scottie1, unfound, taken 311712, evaluations 4723"
        );
        assert_eq!(
            line(3, &CUT_SHORT),
            "card 3: wraase180, cut short, taken 311712, evaluations 4723, \
             start 18446744073709551615, start quality 1.000"
        );
    }

    fn bytes(cards: &[Card]) -> Vec<u8> {
        let all = cards.iter().map(|card| card.to_bytes().unwrap());
        all.collect::<Vec<_>>().concat()
    }

    #[test]
    fn cards_stand_one_behind_the_other() {
        let all = [REPORTED, UNFOUND, CUT_SHORT];
        let read: Result<Vec<Card>, String> = cards_in(&bytes(&all)).collect();
        assert_eq!(read, Ok(all.to_vec()));
        assert_eq!(cards_in(&[]).count(), 0);
    }

    #[test]
    fn a_refused_card_is_told_with_its_number_and_cause() {
        let told = |bytes: &[u8]| cards_in(bytes).find_map(Result::err).unwrap();
        let mut all = bytes(&[REPORTED, UNFOUND, CUT_SHORT]);
        let (whole, most) = (all.clone(), all.len() - 1);
        assert_eq!(
            told(&all[..most]),
            "card 3: refused with 12: a card is not 56 bytes long"
        );
        assert!(told(&all[..57]).starts_with("card 2: refused with 12: "));
        assert!(told(&all[..1]).starts_with("card 1: refused with 12: "));
        all[56] = b'T';
        assert_eq!(
            told(&all),
            "card 2: refused with 13: the card's mark is not SSR, or its version is not 1"
        );
        all = whole;
        all[112 + 5] = 16;
        assert!(told(&all).starts_with("card 3: refused with 14: a field of the card is outside"));
    }
}
