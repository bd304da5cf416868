//! The port's calls over marked memory: the answer, and whether the memory
//! came back as document 01 says.

use crate::lent::Lent;
use drive::plain::{shortest, IMG, VOTES};
use drive::scene::is_robot;
use funnelivy::ffi::{self, RawCardAnswer};
use funnelivy::{Card, Refusal, CARD_BYTES};
use recording::{Answer, Call, CardFields, Length};

/// An answer and what is wrong with the memory, if anything.
pub type Made = (Answer, Option<&'static str>);

/// A refusal as an answer.
#[must_use]
pub fn or_refused(answer: Result<Answer, Refusal>) -> Answer {
    answer.unwrap_or_else(|refusal| Answer::Refused(refusal.0.into()))
}

fn short(mode: u64) -> u8 {
    u8::try_from(mode).unwrap_or(u8::MAX)
}

fn length(lent: Length, asked: usize) -> usize {
    lent.or(asked as u64) as usize
}

fn fault(right: bool, what: &'static str) -> Option<&'static str> {
    (!right).then_some(what)
}

/// Makes a call that needs no session.
///
/// # Panics
/// For a call on a session.
#[must_use]
pub fn make(call: &Call) -> Made {
    let answer = match call {
        Call::Columns { mode, n } => {
            funnelivy::sync_pulse_columns(short(*mode), *n).map(Answer::Count)
        }
        Call::Window { width, counts } => {
            funnelivy::best_pulse_window(counts, *width).map(|best| Answer::Window {
                start: best.start,
                sum: best.sum,
                windows: best.windows,
            })
        }
        Call::Quality {
            mode,
            lines,
            counts,
        } => funnelivy::sync_quality(counts, short(*mode), *lines).map(Answer::Quality),
        Call::Edge { counts } => funnelivy::falling_edge(counts).map(Answer::Column),
        Call::Probe { shift, spectrum } => {
            funnelivy::has_sync(spectrum, *shift).map(Answer::Decided)
        }
        lending => return make_lending(lending),
    };
    (or_refused(answer), None)
}

/// Makes a call that is lent memory.
fn make_lending(call: &Call) -> Made {
    match call {
        Call::Find {
            mode,
            rate,
            img,
            votes,
            flags,
        } => find(
            *mode,
            *rate,
            [length(*img, IMG), length(*votes, VOTES)],
            flags,
        ),
        Call::Fill {
            centre,
            buffer,
            sound,
        } => fill(*centre, length(*buffer, 512), sound),
        Call::Open {
            mode,
            anchor,
            flag_store,
            sample_store,
            samples,
        } => open(*mode, *anchor, [*flag_store, *sample_store], samples),
        Call::WriteCard { buffer, card } => write_card(length(*buffer, CARD_BYTES), *card),
        Call::ReadCard { bytes } => read_card(bytes),
        _ => unreachable!("the other calls need a session"),
    }
}

fn find(mode: u64, rate: f64, lengths: [usize; 2], flags: &[u8]) -> Made {
    let mut img = Lent::new(lengths[0], 0xa5_u8);
    let mut votes = Lent::new(lengths[1], 0xa5a5_u16);
    let found = funnelivy::find_sync(flags, rate, short(mode), &mut img.memory, &mut votes.memory);
    let right = if found.is_ok() {
        img.is_cleared(IMG) && votes.is_cleared(VOTES)
    } else {
        img.is_untouched() && votes.is_untouched()
    };
    (
        or_refused(found.map(Answer::Found)),
        fault(right, "find_sync left the work memory otherwise"),
    )
}

fn fill(centre: u64, length: usize, sound: &[f32]) -> Made {
    let mut buffer = Lent::new(length, 0.375_f32);
    match funnelivy::sync_window(sound, centre, &mut buffer.memory) {
        Ok(()) => (Answer::Filled(buffer.memory), None),
        Err(refusal) => (
            Answer::Refused(refusal.0.into()),
            fault(buffer.is_untouched(), "a refused fill wrote the buffer"),
        ),
    }
}

/// Open through the C interface, because the library's open keeps the stores.
fn open(mode: u64, anchor: u64, lent: [Length; 2], first: &[f32]) -> Made {
    let least = if mode < 16 {
        shortest(mode as usize)
    } else {
        0
    };
    let flags = Lent::new(length(lent[0], least), 0_u8);
    let robot = is_robot(mode as usize);
    let asked = if robot { 4 * flags.memory.len() + 4 } else { 0 };
    let mut samples = Lent::new(length(lent[1], asked), 0.375_f32);
    // SAFETY: each pointer and length is that of a vector or slice that
    // outlives the call; the one that is written is borrowed mutably.
    let opened = unsafe {
        ffi::funnelivy_open(
            short(mode),
            anchor,
            flags.memory.as_ptr(),
            flags.memory.len(),
            samples.memory.as_mut_ptr(),
            samples.memory.len(),
            first.as_ptr(),
            first.len(),
        )
    };
    let written = robot && opened.refusal == 0;
    let right = samples.begins_with(if written { first } else { &[] });
    let answer = match opened.refusal {
        0 => Answer::Opened,
        number => Answer::Refused(number.into()),
    };
    (answer, fault(right, "open left the sample store otherwise"))
}

/// A card's fields as an answer.
#[must_use]
pub fn card_answer(card: Card) -> Answer {
    Answer::Card(card.into())
}

/// Writes into the first places of a longer memory.
fn write_card(length: usize, fields: CardFields) -> Made {
    let card = Card::from(fields);
    let mut out = Lent::new(length + 9, 0xa5_u8);
    let written = card.write(&mut out.memory[..length]);
    let (answer, first) = match written {
        Ok(()) => {
            let bytes = out.memory[..length].to_vec();
            (Answer::Bytes(bytes.clone()), bytes)
        }
        Err(refusal) => (Answer::Refused(refusal.0.into()), Vec::new()),
    };
    let right = out.begins_with(&first);
    (answer, fault(right, "a card was written elsewhere"))
}

/// A card as the C interface answers it. After a refusal it holds nothing.
#[must_use]
pub fn raw_card(raw: &RawCardAnswer) -> Made {
    let fields = CardFields::from(Card::from(raw.card));
    if raw.refusal == 0 {
        return (Answer::Card(fields), None);
    }
    let empty = fields.to_string() == "0 0 0 0 0 00000000 0000000000000000 0 0 00000000";
    let what = "a refused card answers more than its number";
    (Answer::Refused(raw.refusal.into()), fault(empty, what))
}

/// Reads through the library and through the C interface.
fn read_card(bytes: &[u8]) -> Made {
    let answer = or_refused(Card::read(bytes).map(card_answer));
    // SAFETY: the pointer and length are those of a slice that outlives the call.
    let raw = unsafe { ffi::funnelivy_read_card(bytes.as_ptr(), bytes.len()) };
    let (other, wrong) = raw_card(&raw);
    let unlike = fault(answer == other, "the library reads another card");
    (answer, wrong.or(unlike))
}
