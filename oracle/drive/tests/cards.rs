//! The oracle's ledger card against bytes that were made by hand from
//! 02-change-requests.md, A.1.

use drive::card::{Card, Cause, Field, LENGTH};
use drive::cards::{sound, spoiled, CAUSES, ENDS};
use drive::places;
use drive::rng::Rng;

/// A reported card, byte by byte.
const REPORTED: [u8; LENGTH] = [
    0x53, 0x53, 0x52, // SSR
    0x01, 0x00, // version 1
    0x09, // Scottie 1
    0x00, // reported
    0x21, 0x43, 0x65, 0x87, 0, 0, 0, 0, // taken
    0x05, 0x01, 0, 0, 0, 0, 0, 0, // evaluations
    0x08, 0x07, 0x06, 0x05, 0x04, 0x03, 0x02, 0x01, // start
    0x00, 0x00, 0x40, 0x3f, // 0.75
    0x00, 0x00, 0x00, 0x00, 0x80, 0x88, 0xc5, 0x40, // 11,025
    0x78, // 90 degrees
    0xfe, 0xff, 0xff, 0xff, 0xff, 0xff, 0xff, 0xff, // -2
    0x00, 0x00, 0x80, 0x3f, // 1
];

fn reported() -> Card {
    Card {
        mode: 9,
        end: 0,
        taken: 0x8765_4321,
        evaluations: 0x105,
        start: 0x0102_0304_0506_0708,
        start_quality: 0.75_f32.to_bits(),
        rate: 11_025.0_f64.to_bits(),
        slant: 120,
        skip: -2,
        quality: 1.0_f32.to_bits(),
    }
}

fn cut_short() -> Card {
    Card {
        end: 2,
        rate: 0,
        slant: 255,
        skip: 0,
        quality: 0,
        ..reported()
    }
}

fn unfound() -> Card {
    Card {
        end: 1,
        start: 0,
        start_quality: 0,
        ..cut_short()
    }
}

/// The bytes with one changed.
fn with(place: usize, byte: u8) -> Vec<u8> {
    let mut bytes = REPORTED.to_vec();
    bytes[place] = byte;
    bytes
}

#[test]
fn each_field_has_its_place() {
    let mut out = [0xa5; LENGTH];
    assert_eq!(reported().write(&mut out), 0);
    assert_eq!(out, REPORTED);
    assert_eq!(Card::read(&REPORTED), Ok(reported()));
}

#[test]
fn what_an_end_lacks_is_zero() {
    let mut bytes = REPORTED;
    bytes[6] = 2;
    bytes[35..].fill(0);
    bytes[43] = 255;
    assert_eq!(Card::read(&bytes), Ok(cut_short()));
    bytes[6] = 1;
    bytes[23..35].fill(0);
    assert_eq!(Card::read(&bytes), Ok(unfound()));
    for card in [reported(), cut_short(), unfound()] {
        assert_eq!(Card::read(&card.bytes()), Ok(card));
    }
}

#[test]
fn another_length_comes_first() {
    for length in [0, 1, 55, 57, 66, 112] {
        let mut bytes = REPORTED.to_vec();
        bytes.resize(length, 0xff);
        if length > 5 {
            bytes[0] = b'T';
            bytes[5] = 16;
        }
        assert_eq!(Card::read(&bytes), Err(12));
        let wrong = Card {
            mode: 16,
            ..reported()
        };
        let before = bytes.clone();
        assert_eq!(wrong.write(&mut bytes), 12);
        assert_eq!(bytes, before);
    }
}

#[test]
fn mark_and_version_come_before_the_contents() {
    for (place, byte) in [(0, b's'), (1, b'R'), (2, b'S'), (3, 0), (3, 2), (4, 1)] {
        let mut bytes = with(place, byte);
        assert_eq!(Card::read(&bytes), Err(13));
        bytes[5] = 16;
        assert_eq!(Card::read(&bytes), Err(13));
    }
    let mut swapped = REPORTED;
    swapped.swap(3, 4);
    assert_eq!(Card::read(&swapped), Err(13));
}

#[test]
fn ends_of_the_ranges() {
    for (place, byte, answer) in [
        (5, 15, 0),
        (5, 16, 14),
        (5, 255, 14),
        (6, 3, 14),
        (43, 239, 0),
        (43, 240, 14),
        (43, 254, 14),
        (43, 255, 0),
    ] {
        let read = Card::read(&with(place, byte));
        assert_eq!(read.err().unwrap_or(0), answer, "byte {place} {byte}");
    }
    let skip = |skip| Card { skip, ..reported() };
    for far in [1 << 62, -(1 << 62)] {
        assert_eq!(skip(far).causes(), []);
    }
    for beyond in [(1 << 62) + 1, -(1 << 62) - 1, i64::MAX, i64::MIN] {
        assert_eq!(skip(beyond).causes(), [Cause::Skip]);
    }
}

#[test]
fn qualities() {
    for inside in [0, 0x8000_0000, 1, 0x007f_ffff, 0x3f7f_ffff, 0x3f80_0000] {
        let card = Card {
            start_quality: inside,
            quality: inside,
            ..reported()
        };
        assert_eq!(card.causes(), [], "{inside:08x}");
    }
    for out in [
        0x3f80_0001,
        0x8000_0001,
        0x7f80_0000,
        0xff80_0000,
        0x7fc0_0000,
        0xffc0_0000,
        0x7f80_0001,
    ] {
        let of_start = Card {
            start_quality: out,
            ..cut_short()
        };
        assert_eq!(of_start.causes(), [Cause::StartQuality], "{out:08x}");
        let of_image = Card {
            quality: out,
            ..reported()
        };
        assert_eq!(of_image.causes(), [Cause::Quality], "{out:08x}");
    }
}

#[test]
fn rates() {
    let rate = |rate| Card { rate, ..reported() };
    for positive in [1, 0x7fef_ffff_ffff_ffff] {
        assert_eq!(rate(positive).causes(), []);
    }
    for other in [
        0,
        1 << 63,
        (1 << 63) + 1,
        0x7ff0_0000_0000_0000,
        0xfff0_0000_0000_0000,
        0x7ff0_0000_0000_0001,
        0x7ff8_0000_0000_0000,
    ] {
        assert_eq!(rate(other).causes(), [Cause::Rate], "{other:016x}");
    }
}

#[test]
fn filled_fields() {
    let zero = 0x8000_0000_u32;
    let unfound_with = [
        (
            Card {
                start: 1,
                ..unfound()
            },
            Field::Start,
        ),
        (
            Card {
                start_quality: zero,
                ..unfound()
            },
            Field::StartQuality,
        ),
        (
            Card {
                rate: 1 << 63,
                ..unfound()
            },
            Field::Rate,
        ),
        (
            Card {
                slant: 0,
                ..unfound()
            },
            Field::Slant,
        ),
        (
            Card {
                skip: 1 << 32,
                ..unfound()
            },
            Field::Skip,
        ),
        (
            Card {
                quality: zero,
                ..unfound()
            },
            Field::Quality,
        ),
    ];
    for (card, field) in unfound_with {
        assert_eq!(card.causes(), [Cause::Filled(field)]);
        let mut out = [0xa5; LENGTH];
        assert_eq!(card.write(&mut out), 14);
        assert_eq!(out, [0xa5; LENGTH]);
        assert_eq!(Card::read(&card.bytes()), Err(14));
    }
    let beyond = Card {
        skip: i64::MIN,
        slant: 240,
        quality: 0x7fc0_0000,
        ..cut_short()
    };
    let causes = [
        Cause::Slant,
        Cause::Quality,
        Cause::Filled(Field::Slant),
        Cause::Filled(Field::Skip),
        Cause::Filled(Field::Quality),
    ];
    assert_eq!(beyond.causes(), causes);
}

#[test]
fn a_reading_as_a_card() {
    let numbers = [
        0x8765_4321,
        0x105,
        0x0102_0304_0506_0708,
        700,
        0x3f40_0000,
        0x40c5_8880_0000_0000,
        90.0_f64.to_bits(),
        u64::MAX - 1,
        0x3f80_0000,
    ];
    assert_eq!(Card::of(9, (0, numbers)), reported());
    for (slant, q) in [(30.0, 0), (30.5, 1), (149.5, 239)] {
        let mut other = numbers;
        other[6] = f64::to_bits(slant);
        assert_eq!(Card::of(9, (0, other)).slant, q);
    }
    let mut none = numbers;
    none[6] = u64::MAX;
    assert_eq!(Card::of(9, (0, none)).slant, 255);
    none[5..].fill(0);
    assert_eq!(Card::of(9, (2, none)), cut_short());
    none[2..].fill(0);
    assert_eq!(Card::of(9, (1, none)), unfound());
}

#[test]
fn both_readers_agree() {
    let mut rng = Rng::new(20);
    let mut taken = [0; 3];
    for _ in 0..20_000 {
        let end = rng.pick(&ENDS).0;
        let mut card = sound(&mut rng, end);
        for _ in 0..rng.index(3) {
            let cause = rng.pick(&CAUSES).0;
            card = rng.pick(&spoiled(card, cause));
        }
        let mut bytes = card.bytes();
        if rng.permille(300) {
            bytes[rng.index(LENGTH)] = rng.bits() as u8;
        }
        let read = Card::read(&bytes);
        assert_eq!(read.map(|card| card.numbers()), places::read(&bytes));
        if let Ok(card) = read {
            assert_eq!(card.bytes(), bytes);
            taken[usize::from(card.end)] += 1;
        }
    }
    assert!(taken.iter().all(|&number| number > 1_000), "{taken:?}");
}
