//! The Rust as a machine that recordings are made and replayed on.

use crate::card::{Card, LENGTH};
use crate::live::Live;
use crate::plain::{shortest, Reading, IMG, VOTES};
use crate::refusals;
use crate::scene::is_robot;
use recording::{Answer, Call, CardFields, End, Length, Machine, Report};
use rustfft::num_complex::Complex;
use slowrx::modespec::access::spec;
use slowrx::sync::access::{self as sync, Found, Scratch, Tracker};
use std::cell::Cell;
use std::rc::Rc;

/// The Rust, with the session opened last. The Rust refuses nothing, so each
/// refusal is the documents' table as the oracle has it; those are counted. The
/// Rust has no cards and counts no windows: both are the oracle's own (`card`,
/// `windows_with_largest`).
#[derive(Default)]
pub struct Rust {
    live: Live,
    /// Lengths of the stores that the last open was given.
    stores: Option<[usize; 2]>,
    scratch: Scratch,
    refused: Rc<Cell<usize>>,
}

fn length(lent: Length, asked: usize) -> usize {
    lent.or(asked as u64) as usize
}

fn report(found: Found) -> Report {
    Report {
        rate: found.rate,
        slant: found.slant,
        skip: found.skip,
        quality: found.quality,
    }
}

/// A card of a recording.
#[must_use]
pub fn card(fields: &CardFields) -> Card {
    Card {
        mode: fields.mode,
        end: fields.end,
        taken: fields.taken,
        evaluations: fields.evaluations,
        start: fields.start,
        start_quality: fields.start_quality,
        rate: fields.rate,
        slant: fields.slant,
        skip: fields.skip,
        quality: fields.quality,
    }
}

/// The same the other way.
#[must_use]
pub fn card_fields(card: &Card) -> CardFields {
    CardFields {
        mode: card.mode,
        end: card.end,
        taken: card.taken,
        evaluations: card.evaluations,
        start: card.start,
        start_quality: card.start_quality,
        rate: card.rate,
        slant: card.slant,
        skip: card.skip,
        quality: card.quality,
    }
}

/// The 256 pairs that the transform is given.
fn filled(sound: &[f32], centre: u64) -> Answer {
    rustfft::inject(&[]);
    Tracker::new(0.0).has_sync_at(sound, centre as usize);
    let seen = rustfft::seen();
    Answer::Filled(seen.iter().flat_map(|pair| [pair.re, pair.im]).collect())
}

fn decided(spectrum: &[f32], shift: f64) -> Answer {
    let pairs = spectrum.chunks_exact(2);
    let pairs: Vec<_> = pairs.map(|p| Complex { re: p[0], im: p[1] }).collect();
    rustfft::inject(&pairs);
    Answer::Decided(Tracker::new(shift).has_sync_at(&[], 0))
}

/// A read as `live` and `plain` give it.
#[must_use]
pub fn reading((end, n): Reading) -> Answer {
    let (start, windows) = (n[2], n[3]);
    let start_quality = f32::from_bits(n[4] as u32);
    let end = match end {
        0 => End::Reported {
            start,
            windows,
            start_quality,
            report: Report {
                rate: f64::from_bits(n[5]),
                slant: (n[6] != u64::MAX).then(|| f64::from_bits(n[6])),
                skip: n[7] as i64,
                quality: f32::from_bits(n[8] as u32),
            },
        },
        1 => End::Unfound,
        _ => End::CutShort {
            start,
            windows,
            start_quality,
        },
    };
    Answer::Read {
        end,
        taken: n[0],
        evaluations: n[1],
    }
}

impl Rust {
    /// A machine that adds its refusals to this counter.
    #[must_use]
    pub fn counting(refused: Rc<Cell<usize>>) -> Self {
        Self {
            refused,
            ..Self::default()
        }
    }

    /// The answer, unless the table has a number.
    fn unless(&mut self, refusal: u64, answer: impl FnOnce(&mut Self) -> Answer) -> Answer {
        if refusal == 0 {
            return answer(self);
        }
        self.refused.set(self.refused.get() + 1);
        Answer::Refused(refusal)
    }

    fn find(&mut self, mode: u64, rate: f64, memory: [Length; 2], flags: &[u8]) -> Answer {
        let lent = [memory[0].or(IMG as u64), memory[1].or(VOTES as u64)];
        self.unless(refusals::find(mode, rate, lent, flags), |rust| {
            let flags: Vec<bool> = flags.iter().map(|&flag| flag == 1).collect();
            let row = spec(mode as usize);
            let found = sync::find_sync(&flags, rate, row, &mut rust.scratch);
            Answer::Found(report(found))
        })
    }

    fn open(&mut self, mode: u64, anchor: u64, lent: [Length; 2], first: &[f32]) -> Answer {
        let known = mode < 16;
        let capacity = length(lent[0], if known { shortest(mode as usize) } else { 0 });
        let robot = is_robot(mode as usize);
        let asked = capacity.saturating_mul(4).saturating_add(4);
        let samples = length(lent[1], if robot { asked } else { 0 });
        let refusal = self.live.open(mode, anchor, [capacity, samples], first);
        self.unless(refusal, |rust| {
            rust.stores = Some([capacity, samples]);
            Answer::Opened
        })
    }

    fn feed(
        &mut self,
        lent: [Length; 2],
        memory: [Length; 2],
        flags: &[u8],
        samples: &[f32],
    ) -> Option<Answer> {
        let own = self.stores?;
        let stores = [length(lent[0], own[0]), length(lent[1], own[1])];
        let memory = [length(memory[0], IMG), length(memory[1], VOTES)];
        let (refusal, taken) = self.live.feed(stores, memory, flags, samples);
        Some(self.unless(refusal, |_| Answer::Took(taken)))
    }

    fn read(&mut self) -> Option<Answer> {
        self.stores?;
        let read = self.live.read();
        let refusal = if read.is_some() { 0 } else { 11 };
        Some(self.unless(refusal, |_| reading(read.expect("the session has ended"))))
    }

    fn write_card(&mut self, buffer: Length, fields: &CardFields) -> Answer {
        // a longer buffer is refused for its length, however long it is
        let mut out = vec![0; length(buffer, LENGTH).min(LENGTH + 1)];
        let refusal = card(fields).write(&mut out);
        self.unless(refusal, |_| Answer::Bytes(out))
    }

    /// A card, or the refusal of what was to give it.
    fn card_or(&mut self, card: Result<Card, u64>) -> Answer {
        match card {
            Ok(card) => Answer::Card(card_fields(&card)),
            Err(refusal) => self.unless(refusal, |_| unreachable!("refused")),
        }
    }

    fn session_card(&mut self) -> Option<Answer> {
        self.stores?;
        let of = |reading| Card::of(self.live.mode(), reading);
        let card = self.live.read().map(of).ok_or(11);
        Some(self.card_or(card))
    }

    /// The calls on a list of counts or a mode's columns.
    fn fold(&mut self, call: &Call) -> Option<Answer> {
        Some(match call {
            &Call::Columns { mode, n } => self.unless(refusals::columns(mode, n), |_| {
                Answer::Count(sync::sync_pulse_columns(spec(mode as usize), n as usize) as u64)
            }),
            Call::Window { width, counts } => self.unless(refusals::window(counts, *width), |_| {
                let width = *width as usize;
                let (start, sum) = sync::best_pulse_window(counts, width);
                let windows = sync::windows_with_largest(counts, width);
                Answer::Window {
                    start: start as u64,
                    sum,
                    windows: windows as u64,
                }
            }),
            Call::Quality {
                mode,
                lines,
                counts,
            } => self.unless(refusals::quality(counts, *mode, *lines), |_| {
                let row = spec(*mode as usize);
                Answer::Quality(sync::sync_quality(counts, row, *lines as usize))
            }),
            Call::Edge { counts } => self.unless(refusals::edge(counts), |_| {
                Answer::Column(sync::falling_edge(counts) as u64)
            }),
            _ => return None,
        })
    }
}

impl Machine for Rust {
    fn make(&mut self, call: &Call) -> Option<Answer> {
        match call {
            Call::Find {
                mode,
                rate,
                img,
                votes,
                flags,
            } => Some(self.find(*mode, *rate, [*img, *votes], flags)),
            Call::Fill {
                centre,
                buffer,
                sound,
            } => {
                let refusal = refusals::fill(*centre, buffer.or(512), sound);
                Some(self.unless(refusal, |_| filled(sound, *centre)))
            }
            Call::Probe { shift, spectrum } => {
                let refusal = refusals::probe(*shift, spectrum);
                Some(self.unless(refusal, |_| decided(spectrum, *shift)))
            }
            Call::Open {
                mode,
                anchor,
                flag_store,
                sample_store,
                samples,
            } => Some(self.open(*mode, *anchor, [*flag_store, *sample_store], samples)),
            Call::Feed {
                flag_store,
                sample_store,
                img,
                votes,
                flags,
                samples,
            } => self.feed([*flag_store, *sample_store], [*img, *votes], flags, samples),
            Call::Read => self.read(),
            Call::WriteCard { buffer, card } => Some(self.write_card(*buffer, card)),
            Call::ReadCard { bytes } => Some(self.card_or(Card::read(bytes))),
            Call::SessionCard => self.session_card(),
            fold => self.fold(fold),
        }
    }
}
