//! Whole sessions of the port beside the plain session over the Rust's
//! detector and `find_sync`. Each list is run twice on the port, with other
//! anchors and other cuts: through the library, and over marked memory.

mod classes;
mod ported;

use crate::pictures::{self, Picture};
use crate::port::{self, Made};
use crate::run::Run;
use drive::card::Card;
use drive::cards::ENDS;
use drive::machine::{card_fields, reading};
use drive::modes::MODES;
use drive::plain::{Feed, Phase, Session, IMG, MOST_FLAGS, VOTES};
use drive::rng::Rng;
use drive::scene::is_robot;
use drive::session::{piece, spoil};
use ported::{Library, Marked, Ported};
use recording::{Answer, Call, End, Length};

pub use classes::tally;

/// Largest anchor.
pub const FAR: u64 = 1 << 62;

/// One picture in the round's mode; now and then a start that depends on one
/// flag, one with several windows of the largest sum, a long search, or tones that
/// come too late.
pub fn round(run: &mut Run, rng: &mut Rng) {
    let round = run.round;
    let picture = pictures::regular(rng, round);
    twice(run, rng, &picture);
    if round % 4 == 1 {
        let mode = rng.index(MODES);
        let picture = pictures::hanging(rng, mode);
        classes::note_hanging(run, &picture.heard);
        twice(run, rng, &picture);
    }
    if round % 4 == 3 {
        let mode = rng.index(MODES);
        let picture = pictures::flat_top(rng, mode);
        twice(run, rng, &picture);
    }
    let short = 7 + rng.index(2);
    if round % 16 == 2 {
        let picture = pictures::unfound(rng, short);
        twice(run, rng, &picture);
    }
    if round % 16 == 10 {
        let picture = pictures::late(rng, short);
        twice(run, rng, &picture);
    }
    // the modes whose search takes the Rust longer
    if round % 128 == 75 {
        let mode = rng.pick(&[3, 4, 6, 13]);
        let picture = pictures::unfound(rng, mode);
        twice(run, rng, &picture);
        let picture = pictures::late(rng, mode);
        twice(run, rng, &picture);
    }
    if round % 32 == 6 {
        let picture = pictures::later_tones(rng, 3 + (round / 32 % 2) as usize);
        classes::note_later_tones(run, &picture.heard);
        twice(run, rng, &picture);
    }
}

/// How a list is cut into pieces.
#[derive(Clone, Copy, PartialEq)]
enum Cut {
    AtOnce,
    Mixed,
    Blocks(usize),
}

fn some_cut(rng: &mut Rng) -> Cut {
    match rng.below(5) {
        0 => Cut::AtOnce,
        1 => Cut::Blocks(rng.pick(&[64, 63, 65, 128, 997, 4_096])),
        _ => Cut::Mixed,
    }
}

fn some_anchor(rng: &mut Rng) -> u64 {
    match rng.below(6) {
        0 => 0,
        1 => FAR,
        2 => rng.below(1 << 20),
        3 => (1 << 53) + rng.below(1 << 20),
        _ => rng.below(FAR + 1),
    }
}

/// Two sessions of the port over one list. They have to read the same but for
/// the anchor.
fn twice(run: &mut Run, rng: &mut Rng, picture: &Picture) {
    let (mode, capacity) = (picture.heard.mode, picture.capacity);
    let first = &picture.heard.sound.samples[..4];
    let spare = rng.index(3);
    let samples = match (is_robot(mode), spare) {
        (true, _) => 4 * capacity + 4 + spare,
        (false, _) => 17 * spare,
    };
    let anchors = [some_anchor(rng), some_anchor(rng)];
    let sessions: [Box<dyn Ported>; 2] = [
        Box::new(Library::open(mode, anchors[0], [capacity, samples], first)),
        Box::new(Marked::open(mode, anchors[1], [capacity, samples], first)),
    ];
    let mut reads = Vec::new();
    for (anchor, mut port) in anchors.into_iter().zip(sessions) {
        let plain = Session::new(&picture.heard, anchor, capacity, samples);
        let mut driven = Driven {
            run,
            picture,
            plain,
            port: port.as_mut(),
            cut: some_cut(rng),
        };
        reads.push(less(driven.through(rng), anchor));
    }
    let name = "two sessions over one list read the same but for the anchor";
    let same = reads[0] == reads[1];
    run.classes.session.note(name, same);
    if !same {
        let input = format!("two sessions in mode {mode}, F {capacity}, anchors {anchors:?}");
        run.differ(&input, &format!("{} and {}", reads[0], reads[1]));
    }
}

/// A read with the start counted from the anchor, as text.
fn less(mut answer: Answer, anchor: u64) -> String {
    if let Answer::Read { end, .. } = &mut answer {
        match end {
            End::Reported { start, .. } | End::CutShort { start, .. } => {
                *start = start.wrapping_sub(anchor);
            }
            End::Unfound => {}
        }
    }
    answer.to_string()
}

/// A session of the port beside the plain one.
struct Driven<'a> {
    run: &'a mut Run,
    picture: &'a Picture,
    plain: Session<'a>,
    port: &'a mut dyn Ported,
    cut: Cut,
}

impl Driven<'_> {
    /// From open to the end and beyond. Gives what the port reads.
    fn through(&mut self, rng: &mut Rng) -> Answer {
        let opened = self.port.opened();
        let opened = self.with_record(opened);
        self.compare("open", 0, &Answer::Opened, opened);
        while !self.plain.ended() {
            if rng.permille(60) {
                self.refused_feed(rng);
            }
            if rng.permille(20) {
                self.read();
            }
            let m = self.piece_length(rng);
            self.feed(m);
        }
        let read = self.read();
        for _ in 0..2 {
            self.refused_feed(rng);
        }
        self.feed(rng.index(3));
        self.read();
        if self.run.round % 100 == 50 {
            self.long_feed();
        }
        classes::note_end(self.run, &self.plain);
        read
    }

    fn compare(&mut self, name: &str, m: usize, rust: &Answer, port: Made) {
        let plain = &self.plain;
        let (mode, anchor, capacity) = (plain.heard.mode, plain.anchor, plain.capacity);
        let (taken, kind) = (plain.taken, self.port.kind());
        let input = || {
            format!(
                "{name} of {m} flags, session in mode {mode}, anchor {anchor}, F {capacity}, \
                 then {taken} flags taken, {kind}"
            )
        };
        self.run.compare(name, input, rust, port);
    }

    /// The next piece's length: one flag or two near the end in mixed cuts.
    fn piece_length(&self, rng: &mut Rng) -> usize {
        let taken = self.plain.taken;
        let (left, last) = (self.picture.flags.len() - taken, self.picture.last());
        let m = match self.cut {
            Cut::AtOnce => left,
            Cut::Blocks(n) if self.plain.phase == Phase::Searching => n,
            Cut::Blocks(n) => n.max(left / 8 + 1),
            Cut::Mixed if taken + 12 > last => 1 + rng.index(2),
            Cut::Mixed => match rng.below(9) {
                0 => 0,
                1 => 1,
                2 => 63,
                3 => 64,
                4 => 65,
                5 => rng.index(3_000),
                _ => 1 + rng.index(left / 6 + 4_000),
            },
        };
        let ahead = last.saturating_sub(taken);
        if self.cut == Cut::Mixed && m > ahead && ahead > 12 && rng.permille(700) {
            return ahead - 11;
        }
        m.min(left)
    }

    /// The next `m` flags, on both sides.
    fn feed(&mut self, m: usize) {
        let from = self.plain.taken.min(self.picture.flags.len() - m);
        let flags = &self.picture.flags[from..from + m];
        let samples = &self.picture.heard.sound.samples[4 * from + 4..4 * (from + m) + 4];
        let lengths = [self.plain.capacity, self.plain.samples, IMG, VOTES];
        let port = self.port.feed(lengths, flags, samples);
        let late = self.plain.ended();
        let rust = if late {
            Answer::Refused(10)
        } else {
            let before = self.plain.taken;
            while self.plain.taken < before + m && !self.plain.ended() {
                self.plain.step();
            }
            Answer::Took((self.plain.taken - before) as u64)
        };
        let port = self.with_record(port);
        self.compare("feed", m, &rust, port);
        if let Answer::Took(took) = rust {
            classes::note_piece(self.run, &self.plain, m, took as usize);
        }
    }

    /// What was made, and what is wrong with the record's count of windows, where
    /// it can be seen.
    fn with_record(&self, (answer, fault): Made) -> Made {
        let windows = self.port.windows();
        let wrong = windows.is_some_and(|n| usize::from(n) != self.plain.windows());
        let what = "the record has another count of windows";
        (answer, fault.or(wrong.then_some(what)))
    }

    /// A feed that is refused for one cause or two.
    fn refused_feed(&mut self, rng: &mut Rng) {
        let left = self.picture.flags.len() - self.plain.taken;
        if left == 0 {
            return;
        }
        let mut feed = piece(&self.plain, (1 + rng.index(90)).min(left));
        spoil(rng, &self.plain, &mut feed);
        if rng.permille(400) && !feed.samples.is_empty() {
            spoil(rng, &self.plain, &mut feed);
        }
        self.refused(&feed);
    }

    fn refused(&mut self, feed: &Feed) {
        let refusal = feed.refusal(&self.plain);
        if refusal == 0 {
            return;
        }
        let mut flags: Vec<u8> = feed.flags.iter().map(|&flag| u8::from(flag)).collect();
        for &(place, value) in &feed.odd {
            flags[place] = value;
        }
        let lengths = [feed.store, feed.audio, feed.img, feed.votes];
        let port = self.port.feed(lengths, &flags, &feed.samples);
        self.compare("feed", flags.len(), &Answer::Refused(refusal), port);
        let late = self.plain.ended() && refusal < 10;
        let name = "feed after the end, refused below 10";
        self.run.classes.session.note(name, late);
    }

    /// One flag more than a list may have. Nothing reads its samples.
    fn long_feed(&mut self) {
        let mut feed = piece(&self.plain, 0);
        feed.flags = vec![false; MOST_FLAGS + 1];
        feed.samples = vec![0.0; 4 * (MOST_FLAGS + 1)];
        self.refused(&feed);
    }

    fn read(&mut self) -> Answer {
        let rust = if self.plain.ended() {
            reading(self.plain.reading())
        } else {
            Answer::Refused(11)
        };
        let port = self.port.read();
        self.compare("read", 0, &rust, (port.clone(), None));
        self.card();
        port
    }

    /// The session's card, and its bytes as the port writes its own card,
    /// beside the card of the plain session's reading.
    fn card(&mut self) {
        let (answer, fault) = self.port.card();
        if !self.plain.ended() {
            self.compare("cardof", 0, &Answer::Refused(11), (answer, fault));
            return;
        }
        let own = Card::of(self.plain.heard.mode, self.plain.reading());
        let fields = Answer::Card(card_fields(&own));
        self.compare("cardof", 0, &fields, (answer.clone(), fault));
        if let Answer::Card(card) = answer {
            let buffer = Length::AsAsked;
            let written = port::make(&Call::WriteCard { buffer, card });
            self.compare("card1", 0, &Answer::Bytes(own.bytes()), written);
        }
        let class = format!("card of a session, {}", ENDS[usize::from(own.end)].1);
        self.run.classes.cards.note(&class, true);
    }
}
