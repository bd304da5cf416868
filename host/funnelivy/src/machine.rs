//! The port as a machine that recordings are replayed on.

use crate::{
    best_pulse_window, falling_edge, find_sync, has_sync, sample_store_length, sizes,
    sync_pulse_columns, sync_quality, sync_window, Card, Refusal, Session, Work, CARD_BYTES,
};
use recording::{Answer, Call, Length, Machine};

/// The port, with the session opened last.
#[derive(Default)]
pub struct Port {
    session: Option<Session>,
}

fn mode_number(mode: u64) -> u8 {
    u8::try_from(mode).unwrap_or(u8::MAX)
}

fn count(n: u64) -> usize {
    usize::try_from(n).unwrap_or(usize::MAX)
}

/// Work memory or a buffer: the places that are made where a call asks for
/// `asked`. One place too many is answered as any more are.
fn places(length: Length, asked: usize) -> usize {
    count(length.or(asked as u64)).min(asked + 1)
}

/// Work memory of these lengths.
fn work(img: Length, votes: Length) -> Work {
    let mut work = Work::new();
    work.img.resize(places(img, work.img.len()), 0);
    work.votes.resize(places(votes, work.votes.len()), 0);
    work
}

fn or_refused(answer: Result<Answer, Refusal>) -> Answer {
    answer.unwrap_or_else(|r| Answer::Refused(r.0.into()))
}

fn open(
    session: &mut Option<Session>,
    mode: u64,
    anchor: u64,
    (flags, samples): (Length, Length),
    first: &[f32],
) -> Result<Answer, Refusal> {
    let mode = mode_number(mode);
    let asked = sizes(mode).map_or(0, |s| s.window + s.picture);
    let flags = count(flags.or(asked));
    let samples = count(samples.or(sample_store_length(mode, flags) as u64));
    let opened = Session::open_lent(mode, anchor, (flags, samples), first)?;
    *session = Some(opened);
    Ok(Answer::Opened)
}

fn read(session: &Session) -> Result<Answer, Refusal> {
    let reading = session.read()?;
    Ok(Answer::Read {
        end: reading.end,
        taken: reading.taken,
        evaluations: reading.evaluations,
    })
}

fn held(card: Card) -> Answer {
    Answer::Card(card.into())
}

impl Machine for Port {
    fn make(&mut self, call: &Call) -> Option<Answer> {
        Some(or_refused(match call {
            Call::Columns { mode, n } => {
                sync_pulse_columns(mode_number(*mode), *n).map(Answer::Count)
            }
            Call::Window { width, counts } => {
                best_pulse_window(counts, *width).map(|w| Answer::Window {
                    start: w.start,
                    sum: w.sum,
                    windows: w.windows,
                })
            }
            Call::Quality {
                mode,
                lines,
                counts,
            } => sync_quality(counts, mode_number(*mode), *lines).map(Answer::Quality),
            Call::Edge { counts } => falling_edge(counts).map(Answer::Column),
            Call::Find {
                mode,
                rate,
                img,
                votes,
                flags,
            } => {
                let Work { mut img, mut votes } = work(*img, *votes);
                find_sync(flags, *rate, mode_number(*mode), &mut img, &mut votes).map(Answer::Found)
            }
            Call::Fill {
                centre,
                buffer,
                sound,
            } => {
                let mut buffer = vec![0.0; places(*buffer, 512)];
                sync_window(sound, *centre, &mut buffer).map(|()| Answer::Filled(buffer))
            }
            Call::Probe { shift, spectrum } => has_sync(spectrum, *shift).map(Answer::Decided),
            Call::Open {
                mode,
                anchor,
                flag_store,
                sample_store,
                samples,
            } => open(
                &mut self.session,
                *mode,
                *anchor,
                (*flag_store, *sample_store),
                samples,
            ),
            Call::Feed {
                flag_store,
                sample_store,
                img,
                votes,
                flags,
                samples,
            } => {
                let session = self.session.as_mut()?;
                let (own_flags, own_samples) = session.store_lengths();
                let lengths = (
                    count(flag_store.or(own_flags as u64)),
                    count(sample_store.or(own_samples as u64)),
                );
                session
                    .feed_lent(lengths, flags, samples, &mut work(*img, *votes))
                    .map(Answer::Took)
            }
            Call::Read => read(self.session.as_ref()?),
            Call::WriteCard { buffer, card } => {
                let mut out = vec![0; places(*buffer, CARD_BYTES)];
                let written = Card::from(*card).write(&mut out);
                written.map(|()| Answer::Bytes(out))
            }
            Call::ReadCard { bytes } => Card::read(bytes).map(held),
            Call::SessionCard => self.session.as_ref()?.card().map(held),
            Call::Later { .. } => return None,
        }))
    }
}
