//! The ledger of a recording: one session after another over the flags of a
//! sound, a line and a card for each picture.

use funnelivy::{sizes, Card, End, Reading, Refusal, Report, Session, Work};

/// Longest flag store of a session here: 25 minutes. A search that fills it
/// goes on in a new session that begins a window earlier.
const MOST_FLAGS: usize = 1 << 22;

/// A picture in the sound.
#[derive(Clone, Copy, Debug, PartialEq)]
pub struct Picture {
    /// Sample number, counted from the anchor on.
    pub start: u64,
    /// How many windows have the largest sum, at the evaluation that found the
    /// start; 1 unless several windows tie.
    pub windows: u64,
    pub start_quality: f32,
    /// `None` where the sound ends before the picture does.
    pub report: Option<Report>,
}

/// A picture of the ledger.
#[derive(Clone, Copy, Debug, PartialEq)]
pub struct Found {
    /// The flag of the sound at which the picture's session began.
    pub begun: usize,
    pub picture: Picture,
    /// The card of that session.
    pub card: Card,
}

/// How a ledger is kept: by a machine's own count and blocks.
#[derive(Clone, Copy, Debug)]
pub struct Keeping {
    pub mode: u8,
    /// The number of the first sample.
    pub anchor: u64,
    /// Flags of a feed.
    pub block: usize,
}

/// Where a session ended, in flags of the sound, and what it gave.
#[derive(Clone, Copy, Debug, PartialEq)]
struct Ended {
    end: Option<(Reading, Card)>,
    taken: usize,
}

/// One session over the flags from `first` on.
fn run(
    keeping: &Keeping,
    flags: &[u8],
    sound: &[f32],
    first: usize,
    capacity: usize,
    work: &mut Work,
) -> Result<Ended, Refusal> {
    let origin = 4 * first;
    let anchor = keeping.anchor + origin as u64;
    let mut session = Session::open(keeping.mode, anchor, capacity, &sound[origin..origin + 4])?;
    let mut at = first;
    while at < flags.len() {
        let to = (at + keeping.block).min(flags.len());
        let taken = session.feed(&flags[at..to], &sound[4 * at + 4..4 * to + 4], work)?;
        at += usize::try_from(taken).unwrap_or(0);
        if let Ok(reading) = session.read() {
            return Ok(Ended {
                end: Some((reading, session.card()?)),
                taken: at - first,
            });
        }
    }
    Ok(Ended {
        end: None,
        taken: at - first,
    })
}

/// The pictures of a sound, from the flag `first` on. `flags` are the probe
/// flags of the whole sound.
///
/// # Errors
/// A refusal, where the sound or the settings are outside the limits.
pub fn pictures(
    keeping: &Keeping,
    flags: &[u8],
    sound: &[f32],
    first: usize,
) -> Result<Vec<Found>, Refusal> {
    let sizes = sizes(keeping.mode)?;
    let (window, picture) = (as_count(sizes.window), as_count(sizes.picture));
    let mut work = Work::new();
    let mut found = Vec::new();
    let mut at = first;
    while at + window <= flags.len() {
        let capacity = (flags.len() - at).clamp(window + picture, MOST_FLAGS);
        let ended = run(keeping, flags, sound, at, capacity, &mut work)?;
        let Some((reading, card)) = ended.end else {
            break;
        };
        let begun = at;
        match reading.end {
            End::Reported {
                start,
                windows,
                start_quality,
                report,
            } => {
                let picture = Picture {
                    start,
                    windows,
                    start_quality,
                    report: Some(report),
                };
                found.push(Found {
                    begun,
                    picture,
                    card,
                });
                at += ended.taken;
            }
            // Nothing yet: the last window may hold a picture's first lines.
            End::Unfound if at + ended.taken < flags.len() => at += ended.taken - window,
            // Full before the picture was: again, from the picture on.
            End::CutShort { start, .. } if at + ended.taken < flags.len() => {
                let flag = as_count((start - keeping.anchor) / 4);
                at = flag.saturating_sub(window / 4).max(at + 1);
            }
            End::CutShort {
                start,
                windows,
                start_quality,
            } => {
                let picture = Picture {
                    start,
                    windows,
                    start_quality,
                    report: None,
                };
                found.push(Found {
                    begun,
                    picture,
                    card,
                });
                break;
            }
            End::Unfound => break,
        }
    }
    Ok(found)
}

/// Whether a standby's ledger is the primary's from the flag `first` on. What the
/// standby counts is less by `offset`.
pub fn agree(primary: &[Found], standby: &[Found], first: usize, offset: u64) -> bool {
    let due = primary.iter().filter(|one| one.begun >= first);
    let due = due.map(|one| Picture {
        start: one.picture.start - offset,
        ..one.picture
    });
    standby.iter().map(|one| one.picture).eq(due)
}

fn as_count(n: u64) -> usize {
    usize::try_from(n).unwrap_or(usize::MAX)
}

#[cfg(test)]
mod tests {
    use super::*;

    const ROBOT_8_BW: u8 = 8;

    /// Flags of a sound with a picture of Robot 8 B/W from each of these on, whose
    /// pulses have so many flags.
    fn heard(flags: usize, pictures: &[usize], pulse: usize) -> Vec<u8> {
        let mut heard = vec![0; flags];
        for first in pictures {
            for line in 0..120 {
                // A line of 66.9 ms is 184.393125 flags.
                let from = first + line * 184_393_125 / 1_000_000;
                let to = (from + pulse).min(flags);
                heard[from.min(to)..to].fill(1);
            }
        }
        heard
    }

    /// The pictures of these flags, by a machine's count and blocks.
    fn kept(flags: &[u8], anchor: u64, block: usize) -> Vec<Found> {
        let keeping = Keeping {
            mode: ROBOT_8_BW,
            anchor,
            block,
        };
        let sound = vec![0.0; 4 * flags.len() + 4];
        pictures(&keeping, flags, &sound, 0).unwrap()
    }

    /// By a count over the columns of the evaluation that finds the start.
    #[test]
    fn each_picture_has_the_count_of_windows() {
        let flags = heard(85_000, &[500], 90);
        let found = kept(&flags, 0, 64);
        assert_eq!(
            (found[0].picture.start, found[0].picture.windows),
            (1_846, 266)
        );
    }

    #[test]
    fn two_ledgers_agree_in_every_field() {
        let flags = heard(85_000, &[500, 30_000, 70_000], 90);
        let primary = kept(&flags, 1_000_003, 64);
        let standby = kept(&flags, 3, 1_021);
        assert_eq!(primary.len(), 3);
        assert!(agree(&primary, &standby, 0, 1_000_000));
        assert!(agree(&primary, &standby[1..], primary[1].begun, 1_000_000));
        assert!(!agree(&primary, &standby[1..], 0, 1_000_000));
        assert!(!agree(&primary, &standby, 0, 1_000_001));
        let changes: [fn(&mut Picture); 4] = [
            |picture| picture.start += 1,
            |picture| picture.windows += 1,
            |picture| picture.start_quality += 0.25,
            |picture| picture.report = None,
        ];
        for change in changes {
            let mut other = standby.clone();
            change(&mut other[1].picture);
            assert!(!agree(&primary, &other, 0, 1_000_000));
        }
    }

    #[test]
    fn each_picture_has_the_card_of_its_session() {
        let found = kept(&heard(85_000, &[500, 30_000, 70_000], 19), 1_000_003, 64);
        let ends: Vec<u8> = found.iter().map(|f| f.card.end).collect();
        assert_eq!(ends, [0, 0, 2]);
        for Found { picture, card, .. } in found {
            assert_eq!(card.mode, ROBOT_8_BW);
            let of_card = match card.reading().unwrap().end {
                End::Reported {
                    start,
                    start_quality,
                    report,
                    ..
                } => (start, start_quality, Some(report)),
                End::CutShort {
                    start,
                    start_quality,
                    ..
                } => (start, start_quality, None),
                End::Unfound => panic!("no picture"),
            };
            let of_line = (picture.start, picture.start_quality, picture.report);
            assert_eq!(of_card, of_line);
            assert_eq!(Card::read(&card.to_bytes().unwrap()), Ok(card));
        }
    }
}
