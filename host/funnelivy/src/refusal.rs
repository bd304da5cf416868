//! Refusals: a number for each cause, and what it means in words.

use std::fmt;

/// Why a call was refused. Nothing was written, and no answer was given.
#[derive(Clone, Copy, Debug, PartialEq, Eq, Hash)]
pub struct Refusal(pub u32);

impl Refusal {
    /// The cause in words.
    #[must_use]
    pub fn cause(self) -> &'static str {
        match self.0 {
            1 => "the mode is above 15",
            2 => "the rate is not finite or outside 8,000 to 48,000 Hz",
            3 => "the shift is not finite or beyond 5,000 Hz either way",
            4 => "the anchor, or the probe's centre, is above 2^62",
            5 => "lent memory has the wrong length",
            6 => "a list from the sound source has the wrong length",
            7 => "a flag is above 1",
            8 => "a sample or a spectrum's number is not finite, or a sample is beyond 1",
            9 => "a count list, a count, a width, n or lines is outside its limits",
            10 => "the session has ended",
            11 => "the session has not ended",
            12 => "a card is not 56 bytes long",
            13 => "the card's mark is not SSR, or its version is not 1",
            14 => "a field of the card is outside its limits, or filled though the card's end has none",
            _ => "unknown cause",
        }
    }
}

impl fmt::Display for Refusal {
    fn fmt(&self, f: &mut fmt::Formatter<'_>) -> fmt::Result {
        write!(f, "refused with {}: {}", self.0, self.cause())
    }
}

impl std::error::Error for Refusal {}

/// `Err` unless the number is 0.
pub(crate) fn check(number: u32) -> Result<(), Refusal> {
    if number == 0 {
        Ok(())
    } else {
        Err(Refusal(number))
    }
}

#[cfg(test)]
mod tests {
    use super::Refusal;

    #[test]
    fn every_number_has_words() {
        let words = |n| Refusal(n).cause();
        for n in 1..=14 {
            assert_ne!(words(n), "unknown cause", "{n}");
        }
        for n in [0, 15, u32::MAX] {
            assert_eq!(words(n), "unknown cause", "{n}");
        }
    }
}
