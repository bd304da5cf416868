//! Ledger cards: bytes written out by hand from document 02, A.1, every cause of
//! a refusal, and the cards of sessions.

mod robot8;

use funnelivy::{Card, End, Reading, Refusal, Session, CARD_BYTES, NO_SLANT};
use robot8::{ended, heard, MODE as ROBOT_8_BW};

const LENGTH: Refusal = Refusal(12);
const MARK: Refusal = Refusal(13);
const CONTENTS: Refusal = Refusal(14);

const REPORTED: Card = Card {
    mode: 4,
    end: 0,
    taken: 22_588,
    evaluations: 3,
    start: 1_843,
    start_quality: 0.75,
    rate: 11_025.0,
    slant: 120,
    skip: -158,
    quality: 0.5,
};
const UNFOUND: Card = Card {
    mode: 9,
    end: 1,
    taken: 311_712,
    evaluations: 4_723,
    start: 0,
    start_quality: 0.0,
    rate: 0.0,
    slant: NO_SLANT,
    skip: 0,
    quality: 0.0,
};
const CUT_SHORT: Card = Card {
    mode: 15,
    end: 2,
    taken: 0x0102_0304_0506_0708,
    evaluations: u64::MAX,
    start: 1 << 63,
    start_quality: 1.0,
    ..UNFOUND
};

/// In the document's order: mark, version, mode, end; taken; evaluations; start;
/// start quality; rate; slant index; skip; image quality.
#[rustfmt::skip]
const REPORTED_BYTES: [u8; 56] = [
    b'S', b'S', b'R', 1, 0, 4, 0,
    0x3c, 0x58, 0, 0, 0, 0, 0, 0,
    3, 0, 0, 0, 0, 0, 0, 0,
    0x33, 0x07, 0, 0, 0, 0, 0, 0,
    0, 0, 0x40, 0x3f,
    0, 0, 0, 0, 0x80, 0x88, 0xc5, 0x40,
    120,
    0x62, 0xff, 0xff, 0xff, 0xff, 0xff, 0xff, 0xff,
    0, 0, 0, 0x3f,
];
#[rustfmt::skip]
const UNFOUND_BYTES: [u8; 56] = [
    b'S', b'S', b'R', 1, 0, 9, 1,
    0xa0, 0xc1, 0x04, 0, 0, 0, 0, 0,
    0x73, 0x12, 0, 0, 0, 0, 0, 0,
    0, 0, 0, 0, 0, 0, 0, 0,
    0, 0, 0, 0,
    0, 0, 0, 0, 0, 0, 0, 0,
    255,
    0, 0, 0, 0, 0, 0, 0, 0,
    0, 0, 0, 0,
];
#[rustfmt::skip]
const CUT_SHORT_BYTES: [u8; 56] = [
    b'S', b'S', b'R', 1, 0, 15, 2,
    8, 7, 6, 5, 4, 3, 2, 1,
    0xff, 0xff, 0xff, 0xff, 0xff, 0xff, 0xff, 0xff,
    0, 0, 0, 0, 0, 0, 0, 0x80,
    0, 0, 0x80, 0x3f,
    0, 0, 0, 0, 0, 0, 0, 0,
    255,
    0, 0, 0, 0, 0, 0, 0, 0,
    0, 0, 0, 0,
];

const KNOWN: [(Card, [u8; 56]); 3] = [
    (REPORTED, REPORTED_BYTES),
    (UNFOUND, UNFOUND_BYTES),
    (CUT_SHORT, CUT_SHORT_BYTES),
];

/// The offset of each field that more than one test changes.
const MODE: usize = 5;
const END: usize = 6;
const START: usize = 23;
const START_QUALITY: usize = 31;
const RATE: usize = 35;
const SLANT: usize = 43;
const SKIP: usize = 44;
const QUALITY: usize = 52;

/// The card with these bytes at an offset, as the reader answers it.
fn read_with(bytes: &[u8; 56], at: usize, changed: &[u8]) -> Result<Card, Refusal> {
    let mut bytes = *bytes;
    bytes[at..at + changed.len()].copy_from_slice(changed);
    let answer = Card::read(&bytes);
    if let Ok(card) = answer {
        assert_eq!(card.to_bytes(), Ok(bytes), "it writes back otherwise");
    }
    answer
}

/// What both answer to the card with these bytes changed. The writer's card has
/// the fields that stand there.
fn both_with(known: &(Card, [u8; 56]), at: usize, changed: &[u8]) -> Result<(), Refusal> {
    let read = read_with(&known.1, at, changed);
    let mut card = known.0;
    match at {
        MODE => card.mode = changed[0],
        END => card.end = changed[0],
        START => card.start = u64::from_le_bytes(changed.try_into().unwrap()),
        START_QUALITY => {
            card.start_quality = f32::from_le_bytes(changed.try_into().unwrap());
        }
        RATE => card.rate = f64::from_le_bytes(changed.try_into().unwrap()),
        SLANT => card.slant = changed[0],
        SKIP => card.skip = i64::from_le_bytes(changed.try_into().unwrap()),
        QUALITY => card.quality = f32::from_le_bytes(changed.try_into().unwrap()),
        _ => panic!("no field's offset"),
    }
    let mut out = [0xa5; CARD_BYTES];
    let written = card.write(&mut out);
    match written {
        Ok(()) => assert_eq!(read.and_then(|c| c.to_bytes()), Ok(out)),
        Err(_) => assert_eq!(out, [0xa5; CARD_BYTES], "written where refused"),
    }
    assert_eq!(written, read.map(|_| ()), "reader and writer differ");
    written
}

#[test]
fn the_bytes_of_each_end() {
    for (card, bytes) in KNOWN {
        assert_eq!(card.to_bytes(), Ok(bytes));
        assert_eq!(Card::read(&bytes), Ok(card));
    }
}

#[test]
fn another_length_is_refused_before_anything_else() {
    let damaged = Card {
        mode: 16,
        ..REPORTED
    };
    for n in [0, 1, 55, 57, 65, 112] {
        let mut bytes = REPORTED_BYTES.to_vec();
        bytes.resize(n, 0);
        assert_eq!(Card::read(&bytes), Err(LENGTH), "{n}");
        assert_eq!(Card::read(&vec![0; n]), Err(LENGTH), "{n}");
        for card in [REPORTED, damaged] {
            let mut out = vec![0xa5; n];
            assert_eq!(card.write(&mut out), Err(LENGTH), "{n}");
            assert_eq!(out, vec![0xa5; n], "written where refused");
        }
    }
}

#[test]
fn another_mark_or_version_is_refused_before_the_contents() {
    for (_, bytes) in KNOWN {
        for at in 0..5 {
            for bit in 0..8 {
                let byte = [bytes[at] ^ 1 << bit];
                assert_eq!(read_with(&bytes, at, &byte), Err(MARK), "{at}");
                let mut worse = bytes;
                worse[MODE] = 16;
                assert_eq!(read_with(&worse, at, &byte), Err(MARK), "{at}");
            }
        }
        assert_eq!(read_with(&bytes, 3, &[0, 1]), Err(MARK));
        assert_eq!(read_with(&bytes, 3, &[2, 0]), Err(MARK));
        assert_eq!(read_with(&bytes, 0, b"RSS"), Err(MARK));
    }
}

#[test]
fn modes_ends_and_slant_indexes() {
    for known in &KNOWN {
        for mode in 0..=255 {
            let due = if mode < 16 { Ok(()) } else { Err(CONTENTS) };
            assert_eq!(both_with(known, MODE, &[mode]), due, "mode {mode}");
        }
        for end in 3..=255 {
            assert_eq!(both_with(known, END, &[end]), Err(CONTENTS), "end {end}");
        }
        for slant in 0..=255 {
            let held = slant == NO_SLANT || known.0.end == 0 && slant < 240;
            let due = if held { Ok(()) } else { Err(CONTENTS) };
            assert_eq!(both_with(known, SLANT, &[slant]), due, "slant {slant}");
        }
    }
}

/// Bits of an f32 and whether they are from 0 to 1.
const QUALITIES: [(u32, bool); 14] = [
    (0x0000_0000, true),
    (0x8000_0000, true),
    (0x0000_0001, true),
    (0x007f_ffff, true),
    (0x3f80_0000, true),
    (0x3f80_0001, false),
    (0x8000_0001, false),
    (0xbf80_0000, false),
    (0x7f80_0000, false),
    (0xff80_0000, false),
    (0x7fc0_0000, false),
    (0xffc0_0000, false),
    (0x7f80_0001, false),
    (0xffff_ffff, false),
];

#[test]
fn qualities_from_0_to_1_where_the_end_has_them() {
    for (bits, inside) in QUALITIES {
        for known in &KNOWN {
            let here = |has: bool| {
                let held = if has { inside } else { bits == 0 };
                if held {
                    Ok(())
                } else {
                    Err(CONTENTS)
                }
            };
            let bytes = bits.to_le_bytes();
            let start = both_with(known, START_QUALITY, &bytes);
            assert_eq!(start, here(known.0.end != 1), "{bits:x}");
            let image = both_with(known, QUALITY, &bytes);
            assert_eq!(image, here(known.0.end == 0), "{bits:x}");
        }
    }
}

/// Bits of an f64 and whether they are finite and positive.
const RATES: [(u64, bool); 12] = [
    (0x0000_0000_0000_0000, false),
    (0x8000_0000_0000_0000, false),
    (0x0000_0000_0000_0001, true),
    (0x000f_ffff_ffff_ffff, true),
    (0x7fef_ffff_ffff_ffff, true),
    (0x7ff0_0000_0000_0000, false),
    (0xfff0_0000_0000_0000, false),
    (0x8000_0000_0000_0001, false),
    (0xc0c5_8880_0000_0000, false),
    (0x7ff8_0000_0000_0000, false),
    (0xfff8_0000_0000_0000, false),
    (0x7ff0_0000_0000_0001, false),
];

#[test]
fn a_rate_is_finite_and_positive_and_only_a_report_has_one() {
    for (bits, inside) in RATES {
        for known in &KNOWN {
            let held = if known.0.end == 0 { inside } else { bits == 0 };
            let due = if held { Ok(()) } else { Err(CONTENTS) };
            assert_eq!(both_with(known, RATE, &bits.to_le_bytes()), due, "{bits:x}");
        }
    }
}

#[test]
fn a_skip_is_not_beyond_two_to_the_62_and_only_a_report_has_one() {
    const MOST: i64 = 1 << 62;
    for (skip, inside) in [
        (0, true),
        (-1, true),
        (1 << 32, true),
        (MOST, true),
        (-MOST, true),
        (MOST + 1, false),
        (-MOST - 1, false),
        (i64::MAX, false),
        (i64::MIN, false),
    ] {
        for known in &KNOWN {
            let held = if known.0.end == 0 { inside } else { skip == 0 };
            let due = if held { Ok(()) } else { Err(CONTENTS) };
            assert_eq!(both_with(known, SKIP, &skip.to_le_bytes()), due, "{skip}");
        }
    }
}

#[test]
fn only_an_unfound_card_has_no_start() {
    for start in [0, 1, 1 << 32, u64::MAX] {
        for known in &KNOWN {
            let held = known.0.end != 1 || start == 0;
            let due = if held { Ok(()) } else { Err(CONTENTS) };
            assert_eq!(both_with(known, START, &start.to_le_bytes()), due);
        }
    }
}

#[test]
fn slants_in_degrees() {
    let degrees = |slant| Card { slant, ..REPORTED }.slant_degrees();
    assert_eq!(degrees(0), Some(30.0));
    assert_eq!(degrees(120), Some(90.0));
    assert_eq!(degrees(239), Some(149.5));
    assert_eq!(degrees(240), None);
    assert_eq!(degrees(NO_SLANT), None);
}

#[test]
fn a_card_says_what_was_read() {
    let reading = REPORTED.reading().unwrap();
    assert_eq!((reading.taken, reading.evaluations), (22_588, 3));
    let End::Reported {
        start,
        windows,
        start_quality,
        report,
    } = reading.end
    else {
        panic!("another end");
    };
    assert_eq!((start, windows, start_quality), (1_843, 0, 0.75));
    assert_eq!((report.rate, report.slant), (11_025.0, Some(90.0)));
    assert_eq!((report.skip, report.quality), (-158, 0.5));
    assert_eq!(UNFOUND.reading().unwrap().end, End::Unfound);
    let cut_short = End::CutShort {
        start: 1 << 63,
        windows: 0,
        start_quality: 1.0,
    };
    assert_eq!(CUT_SHORT.reading().unwrap().end, cut_short);
    assert_eq!(Card { end: 3, ..REPORTED }.reading(), None);
}

/// What a card keeps of a reading: all but the count of windows, which is there
/// exactly where there is a start.
fn on_card(mut reading: Reading) -> Reading {
    if let End::Reported { windows, .. } | End::CutShort { windows, .. } = &mut reading.end {
        assert_ne!(*windows, 0);
        *windows = 0;
    }
    reading
}

/// The session's card, which agrees with its read and survives its bytes.
fn card_of(session: &Session) -> Card {
    let card = session.card().unwrap();
    assert_eq!(card.reading(), Some(on_card(session.read().unwrap())));
    let bytes = card.to_bytes().unwrap();
    assert_eq!(Card::read(&bytes), Ok(card));
    assert_eq!(session.card(), Ok(card));
    card
}

#[test]
fn the_card_of_a_session_that_reports() {
    let card = card_of(&ended(1_000_003, &heard(500, 19), 1_000));
    let due = Card {
        mode: ROBOT_8_BW,
        end: 0,
        taken: 22_588,
        evaluations: 3,
        start: 1_001_846,
        start_quality: 0.914_155_24,
        rate: 11_025.0,
        slant: 120,
        skip: 158,
        quality: 0.980_707_76,
    };
    assert_eq!(card, due);
}

#[test]
fn the_card_of_a_session_that_finds_nothing() {
    let flags = vec![0; heard(0, 0).len()];
    let card = card_of(&ended(7, &flags, 1_000));
    let due = Card {
        mode: ROBOT_8_BW,
        taken: flags.len() as u64,
        evaluations: card.evaluations,
        ..UNFOUND
    };
    assert_eq!(card, due);
    assert!(card.evaluations > 0);
}

#[test]
fn the_card_of_a_session_that_is_cut_short() {
    let flags = heard(8_000, 19);
    let card = card_of(&ended(7, &flags, 1_000));
    let due = Card {
        mode: ROBOT_8_BW,
        end: 2,
        taken: flags.len() as u64,
        evaluations: card.evaluations,
        start: card.start,
        start_quality: card.start_quality,
        ..UNFOUND
    };
    assert_eq!(card, due);
    assert!(card.start > 4 * 7_000 && card.start_quality > 0.6);
}
