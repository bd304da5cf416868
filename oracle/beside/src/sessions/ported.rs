//! A session of the port: through the library, and over marked memory.

use crate::lent::Lent;
use crate::port::{card_answer, or_refused, raw_card, Made};
use drive::plain::{IMG, VOTES};
use drive::scene::is_robot;
use funnelivy::ffi::{self, RawSession};
use funnelivy::{Refusal, Session, Work};
use recording::Answer;

/// Lengths of flag store, sample store and the two parts of the work memory.
pub type Lengths = [usize; 4];

/// A session that can be fed and read.
pub trait Ported {
    /// What open answered.
    fn opened(&self) -> Made;
    /// Feeds over memory of these lengths.
    fn feed(&mut self, lengths: Lengths, flags: &[u8], samples: &[f32]) -> Made;
    /// Reads.
    fn read(&self) -> Answer;
    /// The card.
    fn card(&self) -> Made;
    /// The count of windows in the record, where it can be seen.
    fn windows(&self) -> Option<u16>;
    /// Which of the two it is.
    fn kind(&self) -> &'static str;
}

/// A session of the safe library.
pub struct Library {
    session: Result<Session, Refusal>,
    work: Work,
}

fn read(session: &Session) -> Result<Answer, Refusal> {
    let reading = session.read()?;
    Ok(Answer::Read {
        end: reading.end,
        taken: reading.taken,
        evaluations: reading.evaluations,
    })
}

impl Library {
    /// Opens over stores of these lengths.
    #[must_use]
    pub fn open(mode: usize, anchor: u64, stores: [usize; 2], first: &[f32]) -> Self {
        let (flags, samples) = (vec![0; stores[0]], vec![0.0; stores[1]]);
        Self {
            session: Session::open_with(mode as u8, anchor, flags, samples, first),
            work: Work::new(),
        }
    }
}

impl Ported for Library {
    fn opened(&self) -> Made {
        let answer = self.session.as_ref().map(|_| Answer::Opened);
        (or_refused(answer.map_err(|refusal| *refusal)), None)
    }

    fn feed(&mut self, lengths: Lengths, flags: &[u8], samples: &[f32]) -> Made {
        let [store, audio, img, votes] = lengths;
        let session = match &mut self.session {
            Ok(session) => session,
            Err(refusal) => return (Answer::Refused(refusal.0.into()), None),
        };
        let mut short = Work {
            img: Vec::new(),
            votes: Vec::new(),
        };
        let work = if (img, votes) == (IMG, VOTES) {
            &mut self.work
        } else {
            short.img.resize(img, 0);
            short.votes.resize(votes, 0);
            &mut short
        };
        let taken = session.feed_lent((store, audio), flags, samples, work);
        (or_refused(taken.map(Answer::Took)), None)
    }

    fn read(&self) -> Answer {
        or_refused(self.session.as_ref().map_err(|r| *r).and_then(read))
    }

    fn card(&self) -> Made {
        let card = self
            .session
            .as_ref()
            .map_err(|r| *r)
            .and_then(Session::card);
        (or_refused(card.map(card_answer)), None)
    }

    fn windows(&self) -> Option<u16> {
        None
    }

    fn kind(&self) -> &'static str {
        "through the library"
    }
}

/// A session over memory that is looked at after each call: the record and
/// the stores stand open here, so the C interface is called directly.
pub struct Marked {
    refusal: u32,
    session: RawSession,
    flags: Vec<u8>,
    samples: Vec<f32>,
    /// What the stores have to hold.
    wanted_flags: Vec<u8>,
    wanted_samples: Vec<f32>,
    img: Lent<u8>,
    votes: Lent<u16>,
    calls: u32,
    robot: bool,
}

/// The record of a refused call.
const NOTHING: RawSession = RawSession {
    anchor: 0,
    capacity: 0,
    taken: 0,
    evaluations: 0,
    streak: 0,
    position: 0,
    rate: 0.0,
    slant: 0.0,
    skip: 0,
    start_quality: 0.0,
    quality: 0.0,
    windows: 0,
    mode: 0,
    phase: 0,
    has_slant: 0,
};

/// The phase of a record that has reported.
const REPORTED: u8 = 2;

impl Marked {
    /// Opens over stores of these lengths. Both hold marks.
    #[must_use]
    pub fn open(mode: usize, anchor: u64, stores: [usize; 2], first: &[f32]) -> Self {
        let flags = vec![0x5a_u8; stores[0]];
        let mut samples = vec![0.625_f32; stores[1]];
        let mut wanted_samples = samples.clone();
        // SAFETY: each pointer and length is that of a vector or slice that
        // outlives the call; the one that is written is borrowed mutably.
        let opened = unsafe {
            ffi::funnelivy_open(
                mode as u8,
                anchor,
                flags.as_ptr(),
                flags.len(),
                samples.as_mut_ptr(),
                samples.len(),
                first.as_ptr(),
                first.len(),
            )
        };
        let robot = is_robot(mode);
        if robot {
            wanted_samples[..4].copy_from_slice(first);
        }
        Self {
            refusal: opened.refusal,
            session: opened.session,
            wanted_flags: flags.clone(),
            flags,
            samples,
            wanted_samples,
            img: Lent::new(IMG + 3, 0xa5),
            votes: Lent::new(VOTES + 3, 0xa5a5),
            calls: 0,
            robot,
        }
    }

    fn stores_are_right(&self) -> bool {
        self.flags == self.wanted_flags && self.samples == self.wanted_samples
    }

    fn call(&mut self, flags: &[u8], samples: &[f32]) -> ffi::RawFed {
        // SAFETY: each pointer and length is that of a vector or slice that
        // outlives the call; those that are written are borrowed mutably and
        // do not overlap.
        unsafe {
            ffi::funnelivy_feed(
                self.session,
                self.flags.as_mut_ptr(),
                self.flags.len(),
                self.samples.as_mut_ptr(),
                self.samples.len(),
                self.img.memory.as_mut_ptr(),
                self.img.memory.len(),
                self.votes.memory.as_mut_ptr(),
                self.votes.memory.len(),
                flags.as_ptr(),
                flags.len(),
                samples.as_ptr(),
                samples.len(),
            )
        }
    }

    /// A call with memory of other lengths, which nothing may be written to.
    fn call_lent(&mut self, lengths: Lengths, flags: &[u8], samples: &[f32]) -> Made {
        let [store, audio, img, votes] = lengths;
        let mut other = Self {
            flags: self.flags.clone(),
            samples: self.samples.clone(),
            wanted_flags: Vec::new(),
            wanted_samples: Vec::new(),
            img: Lent::new(img, 0xa5),
            votes: Lent::new(votes, 0xa5a5),
            ..*self
        };
        other.flags.resize(store, 0x5a);
        other.samples.resize(audio, 0.625);
        other.wanted_flags.clone_from(&other.flags);
        other.wanted_samples.clone_from(&other.samples);
        let fed = other.call(flags, samples);
        let answer = match fed.refusal {
            0 => Answer::Took(fed.taken),
            number => Answer::Refused(number.into()),
        };
        (answer, other.fault_of_refused(&fed))
    }

    fn fault_of_refused(&self, fed: &ffi::RawFed) -> Option<&'static str> {
        if fed.taken != 0 || fed.session != NOTHING {
            return Some("a refused feed answers more than its number");
        }
        let untouched = self.img.is_untouched() && self.votes.is_untouched();
        (!(untouched && self.stores_are_right())).then_some("a refused feed wrote to memory")
    }

    /// What has to be in the stores after a feed that took `taken` flags.
    fn want(&mut self, taken: usize, flags: &[u8], samples: &[f32]) {
        let at = self.session.taken as usize - taken;
        self.wanted_flags[at..at + taken].copy_from_slice(&flags[..taken]);
        if self.robot {
            let place = 4 * at + 4;
            self.wanted_samples[place..place + 4 * taken].copy_from_slice(&samples[..4 * taken]);
        }
    }

    /// All memory is looked at now and then, and at each end.
    fn fault_of_taken(&mut self) -> Option<&'static str> {
        let ended = self.session.phase >= REPORTED;
        if !ended && !self.calls.is_multiple_of(8) {
            return None;
        }
        if !self.stores_are_right() {
            return Some("the stores hold something else than what was taken");
        }
        if self.session.phase == REPORTED {
            let cleared = self.img.is_cleared(IMG) && self.votes.is_cleared(VOTES);
            self.img = Lent::new(IMG + 3, 0xa5);
            self.votes = Lent::new(VOTES + 3, 0xa5a5);
            return (!cleared).then_some("a report left the work memory otherwise");
        }
        let untouched = self.img.is_untouched() && self.votes.is_untouched();
        (!untouched).then_some("a feed without a report wrote the work memory")
    }
}

impl Ported for Marked {
    fn opened(&self) -> Made {
        let answer = match self.refusal {
            0 => Answer::Opened,
            number => Answer::Refused(number.into()),
        };
        let right = self.stores_are_right();
        (answer, (!right).then_some("open left the stores otherwise"))
    }

    fn feed(&mut self, lengths: Lengths, flags: &[u8], samples: &[f32]) -> Made {
        let [store, audio, img, votes] = lengths;
        let own = (store, audio) == (self.flags.len(), self.samples.len());
        if !own || (img, votes) != (IMG, VOTES) {
            return self.call_lent(lengths, flags, samples);
        }
        self.calls += 1;
        let fed = self.call(flags, samples);
        if fed.refusal > 0 {
            let fault = self.fault_of_refused(&fed);
            return (Answer::Refused(fed.refusal.into()), fault);
        }
        let before = self.session.taken;
        self.session = fed.session;
        if fed.taken > flags.len() as u64 || before + fed.taken != fed.session.taken {
            let fault = Some("the record counts other flags than were taken");
            return (Answer::Took(fed.taken), fault);
        }
        self.want(fed.taken as usize, flags, samples);
        (Answer::Took(fed.taken), self.fault_of_taken())
    }

    fn read(&self) -> Answer {
        // SAFETY: a struct of numbers by value.
        let read = unsafe { ffi::funnelivy_read(self.session) };
        read_answer(&read)
    }

    fn card(&self) -> Made {
        // SAFETY: a struct of numbers by value.
        let raw = unsafe { ffi::funnelivy_session_card(self.session) };
        raw_card(&raw)
    }

    fn windows(&self) -> Option<u16> {
        Some(self.session.windows)
    }

    fn kind(&self) -> &'static str {
        "over marked memory"
    }
}

/// The C interface's reading as an answer.
fn read_answer(read: &ffi::RawReading) -> Answer {
    use recording::{End, Report};
    if read.refusal > 0 {
        return Answer::Refused(read.refusal.into());
    }
    let (start, start_quality) = (read.start, read.start_quality);
    let windows = read.windows.into();
    let end = match read.end {
        0 => End::Reported {
            start,
            windows,
            start_quality,
            report: Report {
                rate: read.rate,
                slant: (read.has_slant != 0).then_some(read.slant),
                skip: read.skip,
                quality: read.quality,
            },
        },
        1 => End::Unfound,
        _ => End::CutShort {
            start,
            windows,
            start_quality,
        },
    };
    Answer::Read {
        end,
        taken: read.taken,
        evaluations: read.evaluations,
    }
}
