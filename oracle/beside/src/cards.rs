//! Ledger cards: the port's writer and reader beside the oracle's own
//! (`drive::card`). The Rust has no cards.

use crate::run::Run;
use drive::card::{Card, Cause, Field, LENGTH};
use drive::cards::{full, misheaded, resized, sound, spoiled, CAUSES, ENDS, HEADS};
use drive::machine::card_fields;
use drive::rng::Rng;
use drive::tally::Tally;
use recording::{Answer, Call, Length};

/// The classes of cards. What a session's card reached is noted in `sessions`.
#[must_use]
pub fn tally() -> Tally {
    let mut tally = Tally::new("cards", &[]);
    for (_, end) in ENDS {
        tally.announce(format!("written and read, {end}"));
        for what in ["still a card", "refused 13", "refused 14"] {
            tally.announce(format!("one byte changed, {end}: {what}"));
        }
        tally.announce(format!("card of a session, {end}"));
    }
    for (_, name) in CAUSES {
        tally.announce(format!("14 for {name} alone"));
    }
    for class in [
        "several causes of 14",
        "12 before 14, writer",
        "12 before 14, reader",
        "12 before 13",
        "13 before 14",
        "-0.0 in a quality that the end has",
        "-0.0 in a quality that the end lacks",
        "a NaN in a field that the end has",
        "a NaN in a field that the end lacks",
        "random fields refused",
        "random bytes refused",
        "random bytes behind the mark: a card",
        "random bytes behind the mark: refused",
    ] {
        tally.announce(class.to_string());
    }
    tally
}

/// Some cards of each kind.
pub fn round(run: &mut Run, rng: &mut Rng) {
    for (end, name) in ENDS {
        let card = sound(rng, end);
        both(run, &card);
        run.classes
            .cards
            .note(&format!("written and read, {name}"), true);
        changed(run, rng, &card, name);
    }
    for _ in 0..6 {
        let cause = rng.pick(&CAUSES).0;
        let end = rng.pick(ends_with(cause));
        let card = if rng.permille(500) {
            full(end)
        } else {
            sound(rng, end)
        };
        let card = rng.pick(&spoiled(card, cause));
        wrong(run, rng, card);
    }
    random(run, rng);
}

/// Writes a card into a buffer of this length. Gives the refusal, 0 for none.
fn write(run: &mut Run, card: &Card, length: usize) -> u64 {
    let card = card_fields(card);
    let buffer = Length::Exactly(length as u64);
    number(&run.make(&Call::WriteCard { buffer, card }))
}

/// Reads bytes. Gives the refusal, 0 for none.
fn read(run: &mut Run, bytes: &[u8]) -> u64 {
    let bytes = bytes.to_vec();
    number(&run.make(&Call::ReadCard { bytes }))
}

fn number(answer: &Answer) -> u64 {
    match answer {
        Answer::Refused(number) => *number,
        _ => 0,
    }
}

/// A card written, and its bytes read, whether they are refused or not.
fn both(run: &mut Run, card: &Card) -> u64 {
    read(run, &card.bytes());
    write(run, card, LENGTH)
}

/// A sound card with one byte changed.
fn changed(run: &mut Run, rng: &mut Rng, card: &Card, name: &str) {
    for place in [rng.index(5), 5 + rng.index(2), 7 + rng.index(49)] {
        let mut bytes = card.bytes();
        bytes[place] ^= 1 + rng.below(255) as u8;
        let what = match read(run, &bytes) {
            0 => "still a card".to_string(),
            number => format!("refused {number}"),
        };
        let class = format!("one byte changed, {name}: {what}");
        run.classes.cards.note(&class, true);
    }
}

/// The ends that can have this cause alone.
fn ends_with(cause: Cause) -> &'static [u8] {
    match cause {
        Cause::Mode | Cause::End => &[0, 1, 2],
        Cause::Slant | Cause::Quality | Cause::Rate | Cause::Skip => &[0],
        Cause::StartQuality => &[0, 2],
        Cause::Filled(Field::Start | Field::StartQuality) => &[1],
        Cause::Filled(_) => &[1, 2],
    }
}

/// A card with a cause of 14, and now and then another one, beside another
/// length and another mark.
fn wrong(run: &mut Run, rng: &mut Rng, mut card: Card) {
    if rng.permille(250) {
        let more = rng.pick(&CAUSES).0;
        card = rng.pick(&spoiled(card, more));
    }
    both(run, &card);
    note_wrong(run, &card);
    let bytes = card.bytes();
    let length = rng.pick(&[0, 1, 55, 57, 112]);
    let other = misheaded(&bytes, rng.pick(&HEADS));
    let unread = [
        (read(run, &resized(&bytes, length)), "12 before 14, reader"),
        (read(run, &resized(&other, length)), "12 before 13"),
        (read(run, &other), "13 before 14"),
        (write(run, &card, length), "12 before 14, writer"),
    ];
    for (number, class) in unread {
        let both = !card.causes().is_empty() || class == "12 before 13";
        run.classes.cards.note(class, both && number > 0);
    }
}

fn note_wrong(run: &mut Run, card: &Card) {
    let tally = &mut run.classes.cards;
    let causes = card.causes();
    for (cause, name) in CAUSES {
        tally.note(&format!("14 for {name} alone"), causes == [cause]);
    }
    tally.note("several causes of 14", causes.len() > 1);
    let minus = [card.start_quality, card.quality].contains(&0x8000_0000);
    let name = "-0.0 in a quality that the end has";
    tally.note(name, minus && causes.is_empty());
    let filled = |cause: &Cause| matches!(cause, Cause::Filled(_));
    let name = "-0.0 in a quality that the end lacks";
    tally.note(name, minus && causes.len() == 1 && filled(&causes[0]));
    let floats = [card.start_quality, card.quality];
    let nan = floats.iter().any(|bits| f32::from_bits(*bits).is_nan())
        || f64::from_bits(card.rate).is_nan();
    let lacks = causes.iter().any(filled);
    tally.note("a NaN in a field that the end has", nan && !lacks);
    tally.note("a NaN in a field that the end lacks", nan && lacks);
}

/// Fields and bytes of any bits.
fn random(run: &mut Run, rng: &mut Rng) {
    let card = Card {
        mode: rng.bits() as u8,
        end: rng.below(4) as u8,
        taken: rng.bits(),
        evaluations: rng.bits(),
        start: rng.bits(),
        start_quality: rng.bits() as u32,
        rate: rng.bits(),
        slant: rng.bits() as u8,
        skip: rng.bits() as i64,
        quality: rng.bits() as u32,
    };
    let refused = write(run, &card, LENGTH) > 0;
    run.classes.cards.note("random fields refused", refused);
    let length = rng.pick(&[0, 5, 55, LENGTH, LENGTH, 57, 300]);
    let bytes: Vec<u8> = (0..length).map(|_| rng.bits() as u8).collect();
    let refused = read(run, &bytes) > 0;
    run.classes.cards.note("random bytes refused", refused);
    for _ in 0..6 {
        let mut bytes = full(0).bytes();
        bytes[7..].fill_with(|| rng.bits() as u8);
        bytes[5] = rng.below(18) as u8;
        let taken = read(run, &bytes) == 0;
        let tally = &mut run.classes.cards;
        tally.note("random bytes behind the mark: a card", taken);
        tally.note("random bytes behind the mark: refused", !taken);
    }
}
