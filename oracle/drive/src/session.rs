//! session_vectors: whole sessions, cut into pieces, with refused calls
//! strewn in.

use crate::card::{Card, LENGTH, NONE};
use crate::modes::MODES;
use crate::plain::{shortest, unsound, Feed, Heard, Phase, Session, IMG, VOTES};
use crate::record::{words, Records};
use crate::ring;
use crate::rng::Rng;
use crate::scene::{is_robot, Scene, Sound};
use crate::search::{flag_words, fold, kept, piece_words, taken_at};
use crate::shaped;
use crate::tally::Tally;
use slowrx::modespec::access::spec;
use slowrx::sync::access as sync;
use slowrx::sync_start::access::{self as sync_start, Placed};

/// Largest anchor.
const FAR: u64 = 1 << 62;

/// Two lengths in one number.
fn both(low: usize, high: usize) -> u64 {
    assert!(low >> 32 == 0 && high >> 32 == 0);
    low as u64 | (high as u64) << 32
}

struct Driver {
    records: Records,
    tally: Tally,
}

impl Driver {
    /// Op 0. Gives the refusal, 0 for none.
    fn open(&mut self, mode: u64, anchor: u64, store: usize, audio: usize, first: &[f32]) -> u64 {
        let refused = if mode > 15 {
            1
        } else if anchor > FAR {
            4
        } else if store < shortest(mode as usize)
            || (is_robot(mode as usize) && audio < 4 * store + 4)
        {
            5
        } else if first.len() != 4 {
            6
        } else if unsound(first) {
            8
        } else {
            0
        };
        let a = [mode, anchor, both(store, audio)];
        let x = [refused, first.len() as u64, 0];
        self.records.long(0, a, x, &crate::record::floats(first));
        if refused > 0 {
            self.tally.note(&format!("open refused {refused}"), true);
        }
        refused
    }

    /// Op 1.
    fn feed(&mut self, session: &mut Session, feed: &Feed) {
        let refused = feed.refusal(session);
        let before = session.taken;
        if refused == 0 {
            for _ in 0..feed.flags.len() {
                if session.ended() {
                    break;
                }
                session.step();
            }
        }
        let took = session.taken - before;
        let a = [
            both(feed.flags.len(), feed.samples.len()),
            both(feed.store, feed.audio),
            both(feed.img, feed.votes),
        ];
        let mut payload = flag_words(&feed.flags);
        let mut odd = vec![feed.odd.len() as u32];
        for &(place, value) in &feed.odd {
            odd.extend([place as u32, u32::from(value)]);
        }
        payload.extend(words(&odd));
        payload.extend(piece_words(&feed.samples));
        self.records.long(1, a, [refused, took as u64, 0], &payload);
        if refused > 0 {
            self.tally.note(&format!("feed refused {refused}"), true);
            let late = refused < 10 && session.ended();
            self.tally
                .note("feed after the end, refused below 10", late);
            return;
        }
        let m = feed.flags.len();
        for (size, name) in [(0, "empty piece"), (1, "piece of 1"), (64, "piece of 64")] {
            self.tally.note(name, m == size);
        }
        self.tally.note("piece of 63 or 65", m == 63 || m == 65);
        let whole = before == 0 && session.ended() && m > 1_000;
        self.tally.note("all at once", whole);
        self.tally
            .note("the end drops the rest of a piece", took < m);
        self.tally.note(
            "a piece that ends the session with its last flag",
            took == m && session.ended(),
        );
    }

    /// Op 2.
    fn read(&mut self, session: &Session) {
        if !session.ended() {
            self.records.long(2, [0; 3], [11, 0, 0], &[]);
            self.tally.note("read refused 11", true);
            return;
        }
        let (end, numbers) = session.reading();
        let mut payload: Vec<u8> = numbers.iter().flat_map(|n| n.to_le_bytes()).collect();
        payload.extend(self.card(session));
        self.records.long(2, [0; 3], [0, end, 0], &payload);
    }

    /// The bytes of an ended session's card.
    fn card(&mut self, session: &Session) -> [u8; LENGTH] {
        let card = Card::of(session.heard.mode, session.reading());
        let mut bytes = [0; LENGTH];
        assert_eq!(card.write(&mut bytes), 0);
        let tally = &mut self.tally;
        let slanted = card.slant < NONE && card.skip != 0;
        tally.note("card with a slant and a skip", slanted);
        let best = card.start_quality == 1.0_f32.to_bits();
        tally.note("card with a start quality of 1", best);
        bytes
    }

    fn note_end(&mut self, session: &Session) {
        let mode = session.heard.mode;
        let tally = &mut self.tally;
        let phase = session.phase;
        tally.note(
            &format!("reported in mode {mode}"),
            phase == Phase::Reported,
        );
        tally.note("unfound", phase == Phase::Unfound);
        tally.note("cut short", phase == Phase::CutShort);
        let f = session.capacity;
        tally.note("F exactly w + P", f == shortest(mode));
        let full = session.heard.full();
        let at_end = full == Some(f) && phase == Phase::Reported;
        tally.note("F exactly f + P: reported", at_end);
        let short = full == Some(f + 1) && phase == Phase::CutShort;
        tally.note("F exactly f + P - 1: cut short", short);
        let found = session.heard.start.is_some_and(|(taken, _)| taken == f);
        tally.note(
            "start found exactly at F: cut short",
            found && phase == Phase::CutShort,
        );
        tally.note("anchor 0", session.anchor == 0);
        tally.note("anchor 2^62", session.anchor == FAR);
        let between = session.anchor > 1 << 53 && session.anchor < FAR;
        tally.note("anchor above 2^53", between);
        tally.note(
            "anchor not a multiple of 4",
            !session.anchor.is_multiple_of(4),
        );
        let report = session.heard.report.filter(|_| phase == Phase::Reported);
        tally.note(
            "report with a slant of 90",
            report.is_some_and(|r| r.slant == Some(90.0)),
        );
        let leans = report.is_some_and(|r| r.rate != 11_025.0);
        tally.note("report with another rate", leans);
        let ends = [(Phase::Reported, ENDS[0]), (Phase::CutShort, ENDS[1])];
        if let Some((_, end)) = ends.into_iter().find(|(end, _)| *end == phase) {
            let (sound, j) = (&session.heard.sound, session.evaluations - 1);
            ring::note_start(tally, end, mode, &fold(mode, sound, j));
            ring::note_streak(tally, end, mode, sound, j);
        }
    }
}

/// What stands before the classes of starts, by the session's end.
const ENDS: [&str; 2] = ["reported: ", "cut short: "];

/// How a list is cut into pieces.
#[derive(Clone, Copy, PartialEq)]
enum Cut {
    AtOnce,
    Mixed,
    Blocks(usize),
}

/// The largest piece, so that a program can hold its samples.
fn largest_piece(mode: usize) -> usize {
    if is_robot(mode) || (6..=8).contains(&mode) {
        110_000
    } else {
        65_536
    }
}

fn piece_length(rng: &mut Rng, cut: Cut, mode: usize, left: usize) -> usize {
    let largest = largest_piece(mode);
    match cut {
        Cut::AtOnce => left.min(largest),
        Cut::Blocks(n) => n,
        Cut::Mixed => match rng.below(9) {
            0 => 0,
            1 => 1,
            2 => 63,
            3 => 64,
            4 => 65,
            5 => rng.index(3_000),
            _ => 1 + rng.index(largest.min(left / 6 + 4_000)),
        },
    }
}

/// One session over what was heard: open, pieces, reads, refused calls.
fn run(driver: &mut Driver, rng: &mut Rng, heard: &Heard, anchor: u64, capacity: usize, cut: Cut) {
    let mode = heard.mode;
    let spare = rng.index(3);
    let samples = match (is_robot(mode), spare) {
        (true, _) => 4 * capacity + 4 + spare,
        (false, 0) => 0,
        (false, _) => 17 * spare,
    };
    refused_opens(driver, rng, heard, anchor, capacity, samples);
    let first = &heard.sound.samples[..4];
    assert_eq!(
        driver.open(mode as u64, anchor, capacity, samples, first),
        0
    );
    let mut session = Session::new(heard, anchor, capacity, samples);
    // one-flag pieces around the first evaluation and the end
    let last = heard.full().map_or(capacity, |full| full.min(capacity));
    let slowly = |taken: usize| cut == Cut::Mixed && (taken + 12 > last);
    while !session.ended() {
        if rng.permille(60) {
            refused_feed(driver, rng, &mut session);
        }
        if rng.permille(20) {
            driver.read(&session);
        }
        if rng.permille(15) {
            refused_opens(driver, rng, heard, anchor, capacity, samples);
        }
        let taken = session.taken;
        let left = heard.sound.flags.len() - taken;
        let mut m = piece_length(rng, cut, mode, left);
        if slowly(taken) {
            m = 1 + rng.index(2);
        } else if cut == Cut::Mixed
            && rng.permille(700)
            && taken + m + 12 > last
            && last > taken + 12
        {
            m = last - taken - 11;
        }
        let m = m.min(left).min(largest_piece(mode));
        let feed = piece(&session, m);
        driver.feed(&mut session, &feed);
    }
    driver.read(&session);
    for _ in 0..2 {
        refused_feed(driver, rng, &mut session);
    }
    let feed = piece(&session, 2);
    driver.feed(&mut session, &feed);
    driver.read(&session);
    driver.note_end(&session);
}

/// The next `m` flags with their samples, and the right lengths.
#[must_use]
pub fn piece(session: &Session, m: usize) -> Feed {
    let sound = &session.heard.sound;
    let from = session.taken.min(sound.flags.len() - m);
    Feed {
        store: session.capacity,
        audio: session.samples,
        img: IMG,
        votes: VOTES,
        flags: sound.flags[from..from + m].to_vec(),
        odd: Vec::new(),
        samples: sound.samples[4 * from + 4..4 * (from + m) + 4].to_vec(),
    }
}

/// A feed that is refused for one reason or several.
fn refused_feed(driver: &mut Driver, rng: &mut Rng, session: &mut Session) {
    let left = session.heard.sound.flags.len() - session.taken;
    let m = (1 + rng.index(90)).min(left);
    let mut feed = piece(session, m.max(1).min(left));
    if feed.flags.is_empty() {
        return;
    }
    for _ in 0..1 + rng.index(2) {
        spoil(rng, session, &mut feed);
    }
    if feed.refusal(session) == 0 {
        return;
    }
    let before = session.taken;
    driver.feed(session, &feed);
    assert_eq!(before, session.taken);
}

/// Gives a feed one cause to be refused.
pub fn spoil(rng: &mut Rng, session: &Session, feed: &mut Feed) {
    let m = feed.flags.len();
    match rng.below(9) {
        0 => feed.store = session.capacity - 1,
        1 => feed.store = session.capacity + 1,
        // no matter in the modes without a sample store
        2 if is_robot(session.heard.mode) => feed.audio = 4 * session.capacity + 3,
        2 => feed.audio = rng.index(40),
        3 => feed.img = rng.pick(&[0, IMG - 1]),
        4 => feed.votes = rng.pick(&[0, VOTES - 1]),
        5 => {
            feed.samples.pop();
        }
        6 => feed.samples.extend([0.0; 4]),
        7 => feed.odd = vec![(rng.index(m), rng.pick(&[2, 3, 255]))],
        _ => {
            let wrong = [f32::NAN, f32::INFINITY, -f32::INFINITY, 1.000_000_1, -1.5];
            let place = rng.index(feed.samples.len());
            feed.samples[place] = rng.pick(&wrong);
        }
    }
}

/// Opens that are refused. They leave the session before them as it is.
fn refused_opens(
    driver: &mut Driver,
    rng: &mut Rng,
    heard: &Heard,
    anchor: u64,
    store: usize,
    audio: usize,
) {
    let mode = heard.mode as u64;
    let first: Vec<f32> = heard.sound.samples[..4].to_vec();
    let bad = rng.pick(&[f32::NAN, f32::INFINITY, -1.000_000_1, 2.0]);
    let unsound = [first[0], bad, first[2], first[3]];
    let few = shortest(heard.mode) - 1;
    let plenty = if is_robot(heard.mode) {
        4 * store + 4
    } else {
        audio
    };
    for _ in 0..2 {
        match rng.below(10) {
            0 => driver.open(rng.pick(&[16, 17, 255]), anchor, store, audio, &first),
            1 => driver.open(mode, rng.pick(&[FAR + 1, u64::MAX]), store, audio, &first),
            2 => driver.open(mode, anchor, few, plenty, &first),
            3 => driver.open(mode, anchor, store, audio, &first[..3]),
            4 => driver.open(mode, anchor, store, audio, &[0.0; 5]),
            5 => driver.open(mode, anchor, store, audio, &[]),
            6 => driver.open(mode, anchor, store, audio, &unsound),
            7 => driver.open(16, u64::MAX, 0, 0, &unsound),
            8 => driver.open(mode, FAR + 1, few, 0, &unsound[..2]),
            _ => driver.open(mode, anchor, few, plenty, &unsound[..3]),
        };
    }
    if is_robot(heard.mode) {
        driver.open(mode, anchor, store, 4 * store + 3, &first);
    }
}

/// Two sessions over one list, with other anchors and other cuts.
fn twice(driver: &mut Driver, rng: &mut Rng, heard: &Heard, capacity: usize) {
    let short = largest_piece(heard.mode) > 65_536;
    let other = match rng.below(3) {
        0 if short => Cut::AtOnce,
        1 => Cut::Blocks(rng.pick(&[997, 4_096])),
        _ => Cut::Mixed,
    };
    for cut in [Cut::Mixed, other] {
        let anchor = match rng.below(5) {
            0 => 0,
            1 => FAR,
            2 => rng.below(1 << 20),
            _ => rng.below(FAR),
        };
        run(driver, rng, heard, anchor, capacity, cut);
    }
}

/// All vectors of sessions.
///
/// # Errors
/// Classes that were not reached.
pub fn vectors() -> Result<Records, String> {
    let mut tally = Tally::new(
        "session",
        &[
            "unfound",
            "cut short",
            "F exactly w + P",
            "F exactly f + P: reported",
            "F exactly f + P - 1: cut short",
            "start found exactly at F: cut short",
            "anchor 0",
            "anchor 2^62",
            "anchor above 2^53",
            "anchor not a multiple of 4",
            "empty piece",
            "piece of 1",
            "piece of 63 or 65",
            "piece of 64",
            "all at once",
            "the end drops the rest of a piece",
            "a piece that ends the session with its last flag",
            "report with a slant of 90",
            "report with another rate",
            "card with a slant and a skip",
            "card with a start quality of 1",
            "read refused 11",
            "feed after the end, refused below 10",
            "later tones, heard at once, would tell another parity",
        ],
    );
    for refusal in [1, 4, 5, 6, 8] {
        tally.announce(format!("open refused {refusal}"));
    }
    for refusal in [5, 6, 7, 8, 10] {
        tally.announce(format!("feed refused {refusal}"));
    }
    for mode in 0..MODES {
        tally.announce(format!("reported in mode {mode}"));
    }
    for end in ENDS {
        ring::announce_start(&mut tally, end);
    }
    let mut driver = Driver {
        records: Records::default(),
        tally,
    };
    let mut rng = Rng::new(8);
    for mode in 0..MODES {
        pictures(&mut driver, &mut rng, mode);
    }
    // sessions that search long: modes whose picture is short
    for mode in [8, 7, 6, 3, 4, 13] {
        long_searches(&mut driver, &mut rng, mode);
    }
    for mode in [3, 4] {
        later_tones(&mut driver, &mut rng, mode);
    }
    for mode in [8, 7, 13, 9] {
        flat_tops(&mut driver, &mut rng, mode);
    }
    driver.tally.report()?;
    Ok(driver.records)
}

/// A scene with a little of everything that a channel does.
fn scene(rng: &mut Rng, mode: usize, lead_in: usize, flags: usize) -> Scene {
    let mut scene = Scene::clean(mode, lead_in, flags);
    scene.missing = rng.pick(&[0, 0, 80]);
    scene.bursts = rng.pick(&[0, 20, 60]);
    scene.odd_first = rng.permille(500);
    scene.tone_lines = 0..36;
    scene.slower = match rng.below(3) {
        0 => 0.0,
        _ => (rng.unit() - 0.5) / sync::line_width(spec(mode)) as f64 * 0.4,
    };
    scene
}

/// Pictures that are found: reported in a roomy store and in one of w + P,
/// of f + P and of f + P - 1 flags.
fn pictures(driver: &mut Driver, rng: &mut Rng, mode: usize) {
    let w = taken_at(mode, 0);
    let line = (spec(mode).line_seconds * 2_756.25) as usize;
    let roomy = shortest(mode) + 2 * w + 6_000;
    let near = rng.index(line);
    let heard = Heard::new(mode, scene(rng, mode, near, roomy).sound(rng));
    twice(driver, rng, &heard, shortest(mode));
    let more = 1 + rng.index(2_000);
    twice(driver, rng, &heard, shortest(mode) + more);
    let far = w + line * 3 + rng.index(line);
    let heard = Heard::new(mode, scene(rng, mode, far, roomy + 4 * line).sound(rng));
    let Some(full) = heard.full() else {
        return;
    };
    assert!(full > shortest(mode));
    twice(driver, rng, &heard, full);
    twice(driver, rng, &heard, full - 1);
}

/// Starts with several windows of the largest sum: a list made for it, reported,
/// and a picture of longer pulses, reported and cut short. Its lead-in is the
/// first from which the three evaluations of the streak have three counts.
fn flat_tops(driver: &mut Driver, rng: &mut Rng, mode: usize) {
    let capacity = shortest(mode) + rng.index(2_000);
    let mut sound = shaped::three_counts(rng, mode);
    sound.silence(capacity + 500);
    twice(driver, rng, &Heard::new(mode, sound), capacity);
    let row = spec(mode);
    let [line, pulse] = [row.line_seconds, row.sync_seconds].map(|s| (s * 2_756.25) as usize);
    let lead_ins = (taken_at(mode, 0) + 3 * line + rng.index(line)..).step_by(5);
    let mut pictures = lead_ins.map(|lead_in| {
        let mut scene = Scene::clean(mode, lead_in, shortest(mode) + lead_in);
        scene.longer = 2 * pulse;
        scene.gap = (2 * sync_start::window_lines(row), usize::MAX);
        Heard::new(mode, scene.sound(rng))
    });
    let heard = pictures.find(|heard| {
        let j = heard.evaluations.len() - 1;
        heard.start.is_some() && ring::has_three_counts(mode, &heard.sound, j)
    });
    let heard = heard.expect("some lead-in");
    let full = heard.full().expect("there is a start");
    assert!(full > shortest(mode));
    twice(driver, rng, &heard, full);
    twice(driver, rng, &heard, full - 1);
}

/// Silence or noise up to F, and a start that is found exactly at F.
fn long_searches(driver: &mut Driver, rng: &mut Rng, mode: usize) {
    let capacity = shortest(mode) + rng.index(700);
    let mut sound = Sound::silent(capacity + 900);
    crate::train::bursts(&mut sound.flags, 400, 20, rng);
    let heard = Heard::new(mode, sound);
    assert!(heard.start.is_none());
    twice(driver, rng, &heard, capacity);
    let late = shortest(mode) + rng.index(1_000);
    let flags = late + 2 * taken_at(mode, 0);
    let heard = Heard::new(mode, Scene::clean(mode, late, flags).sound(rng));
    let (at, _) = heard.start.expect("a clean picture is found");
    assert!(at >= shortest(mode));
    twice(driver, rng, &heard, at);
    twice(driver, rng, &heard, at - 1);
}

/// Only lines that are not known yet when the start is found have a tone. It
/// must not be heard, though it comes in the same piece.
fn later_tones(driver: &mut Driver, rng: &mut Rng, mode: usize) {
    let line = (spec(mode).line_seconds * 2_756.25) as usize;
    let mut scene = Scene::clean(mode, 5 * line, shortest(mode) + 9_000);
    scene.odd_first = true;
    scene.tone_lines = 10..40;
    let heard = Heard::new(mode, scene.sound(rng));
    let (taken, found) = heard.start.expect("a clean picture is found");
    let j = (taken - taken_at(mode, 0)) / 64;
    let (flags, all) = (&heard.sound.flags[..taken], &heard.sound.samples);
    let other = Placed::new(spec(mode), flags, all, j, kept(j), 2).evaluate();
    let name = "later tones, heard at once, would tell another parity";
    driver
        .tally
        .note(name, other.is_some_and(|o| o.position != found.position));
    let capacity = shortest(mode) + 8_000;
    run(driver, rng, &heard, 4, capacity, Cut::AtOnce);
    run(driver, rng, &heard, 1 << 40, capacity, Cut::Blocks(4_096));
}
