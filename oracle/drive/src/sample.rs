//! Recordings that the Rust makes: in version 2 every call of document 01, each
//! end of a session, refusals, several anchors and cuts; in version 1 only the
//! calls whose answers have fewer fields there. The same seed gives the same bytes.

use crate::dsp::{shifts, spectrum};
use crate::find_sync::RATES;
use crate::machine::Rust;
use crate::modes::MODES;
use crate::plain::{shortest, Heard};
use crate::pulse::{add_top, list, COLUMNS};
use crate::rng::Rng;
use crate::scene::{Scene, Sound, RATE};
use crate::search::taken_at;
use crate::shaped;
use crate::train::{set, Train};
use recording::{record, Call, Entry, Length, Recording, Version};
use slowrx::modespec::access::spec;
use slowrx::sync::access::{self as sync, Tracker};

/// Largest anchor and centre.
const FAR: u64 = 1 << 62;

/// The text of the recording.
#[must_use]
pub fn text(seed: u64, version: Version) -> String {
    let mut rng = Rng::new(seed);
    let mut calls = Vec::new();
    if version == Version::Two {
        folds(&mut calls, &mut rng);
        sounds(&mut calls, &mut rng);
        finds(&mut calls, &mut rng);
        sessions(&mut calls, &mut rng);
    }
    ties(&mut calls, &mut rng);
    let entry = |(line, call)| Entry {
        line,
        call,
        answer: None,
    };
    let entries = calls.into_iter().enumerate().map(entry).collect();
    record(&Recording { version, entries }, &mut Rust::default()).text
}

fn columns(mode: u64, n: u64) -> Call {
    Call::Columns { mode, n }
}

fn window(width: usize, counts: Vec<u32>) -> Call {
    let width = width as u64;
    Call::Window { width, counts }
}

fn quality(mode: u64, lines: u64, counts: Vec<u32>) -> Call {
    Call::Quality {
        mode,
        lines,
        counts,
    }
}

/// One count alone in a list of zeros.
fn alone(n: usize, place: usize, count: u32) -> Vec<u32> {
    let mut counts = vec![0; n];
    counts[place] = count;
    counts
}

/// Columns, windows, qualities and edges.
fn folds(calls: &mut Vec<Call>, rng: &mut Rng) {
    pulses(calls, rng);
    calls.extend([columns(4, 0), columns(4, 65_536), columns(4, 65_537)]);
    calls.extend([columns(16, 700), columns(16, 65_537)]);
    short_lists(calls, rng);
    calls.extend([window(2, vec![5, 1, 1, 5]), window(2, vec![5; 4])]);
    calls.extend([window(0, vec![5; 4]), window(5, vec![5; 4])]);
    calls.extend([window(1, Vec::new()), window(1, vec![0; 65_537])]);
    calls.extend([quality(4, 0, vec![9; 3]), quality(4, 240, Vec::new())]);
    calls.extend([quality(16, 240, vec![9; 3]), quality(4, 65_537, vec![9; 3])]);
    edges(calls, rng);
}

/// Each mode's columns, and a fold with its pulse.
fn pulses(calls: &mut Vec<Call>, rng: &mut Rng) {
    for mode in 0..MODES as u64 {
        calls.push(columns(mode, 700));
        calls.push(columns(mode, rng.below(65_537)));
        let width = sync::sync_pulse_columns(spec(mode as usize), COLUMNS);
        let mut counts = vec![0; COLUMNS];
        let (start, full) = (rng.index(COLUMNS), 1 + rng.below(240) as u32);
        for i in 0..width {
            counts[(start + i) % COLUMNS] = full;
        }
        calls.push(quality(mode, 240, counts.clone()));
        calls.push(window(width, counts));
    }
}

/// Windows and qualities of up to twelve counts.
fn short_lists(calls: &mut Vec<Call>, rng: &mut Rng) {
    for n in 1..=12 {
        let width = 1 + rng.index(n);
        calls.push(window(width, list(rng, n)));
        calls.push(quality(rng.below(16), rng.below(9), list(rng, n)));
    }
}

fn edges(calls: &mut Vec<Call>, rng: &mut Rng) {
    for place in [0, 3, 4, 349, 350, 351, 691, 694, 695, 699] {
        let counts = alone(COLUMNS, place, 1 + rng.below(240) as u32);
        calls.push(Call::Edge { counts });
    }
    let others = [
        list(rng, COLUMNS).iter().map(|c| c % 241).collect(),
        vec![1_000_000; COLUMNS],
        alone(COLUMNS, 8, 1_000_001),
        vec![0; 699],
        vec![0; 701],
    ];
    calls.extend(others.map(|counts| Call::Edge { counts }));
}

fn fill(centre: u64, buffer: Length, sound: Vec<f32>) -> Call {
    Call::Fill {
        centre,
        buffer,
        sound,
    }
}

fn probe(shift: f64, spectrum: Vec<f32>) -> Call {
    Call::Probe { shift, spectrum }
}

/// Windows of the spectrum and decisions.
fn sounds(calls: &mut Vec<Call>, rng: &mut Rng) {
    for (n, centre) in [(0, 0), (1, 0), (16, 8), (30, 2), (30, 15), (30, 27), (7, 4)] {
        let sound = (0..n).map(|_| rng.sample()).collect();
        calls.push(fill(centre, Length::AsAsked, sound));
    }
    calls.push(fill(FAR, Length::AsAsked, vec![0.5; 9]));
    calls.push(fill(FAR + 1, Length::AsAsked, vec![2.0; 9]));
    calls.push(fill(8, Length::Exactly(511), vec![2.0; 9]));
    calls.push(fill(8, Length::Exactly(513), vec![0.5; 9]));
    calls.push(fill(8, Length::AsAsked, vec![0.5, f32::NAN]));
    let list = shifts(rng);
    for i in 0..14 {
        let shift = if i < 4 { 0.0 } else { rng.pick(&list) };
        let (sync, low, high) = Tracker::new(shift).bins();
        let shape = [1, 2, 0, 1, 2][i % 5];
        let pairs = spectrum(rng, shape, sync, low, high);
        let numbers = pairs.iter().flat_map(|pair| [pair.re, pair.im]).collect();
        calls.push(probe(shift, numbers));
    }
    calls.push(probe(-5_000.0, vec![0.0; 258]));
    calls.push(probe(5_000.000_000_000_001, vec![0.0; 257]));
    calls.push(probe(f64::NAN, vec![0.0; 258]));
    calls.push(probe(0.0, vec![f32::INFINITY; 259]));
    calls.push(probe(0.0, vec![f32::INFINITY; 258]));
}

fn find(mode: u64, rate: f64, memory: [Length; 2], flags: &[bool]) -> Call {
    Call::Find {
        mode,
        rate,
        img: memory[0],
        votes: memory[1],
        flags: flags.iter().map(|&flag| u8::from(flag)).collect(),
    }
}

/// Trains, few flags, none, refusals.
fn finds(calls: &mut Vec<Call>, rng: &mut Rng) {
    let asked = [Length::AsAsked; 2];
    for mode in 0..MODES {
        let row = spec(mode);
        let rate = RATES[mode % RATES.len()];
        let whole = sync::image_probes(row, rate);
        let mut flags = vec![false; whole];
        let mut train = Train::of(row, rate);
        train.first = rng.unit() * row.line_seconds;
        train.slower = (rng.unit() - 0.5) * 2.0 / sync::line_width(row) as f64;
        train.lines = train.lines.min(120);
        train.draw(row, &mut flags, 50, rng);
        calls.push(find(mode as u64, rate, asked, &flags));
        flags.fill(false);
        for _ in 0..rng.pick(&[1, 3, 9]) {
            let from = rng.index(whole);
            set(&mut flags, from, from + 1 + rng.index(40));
        }
        calls.push(find(mode as u64, rate, asked, &flags));
        calls.push(find(mode as u64, 11_025.0, asked, &[]));
    }
    let short = [Length::Exactly(440_999), Length::Exactly(143_999)];
    calls.push(find(16, 7_999.0, short, &[]));
    calls.push(find(0, 7_999.999, short, &[]));
    calls.push(find(0, f64::NAN, asked, &[]));
    calls.push(find(0, 48_000.0, short, &[]));
    calls.push(find(0, 8_000.0, [short[0], asked[1]], &[]));
    let mut wrong = find(0, 8_000.0, asked, &[true; 9]);
    if let Call::Find { flags, .. } = &mut wrong {
        flags[8] = 2;
    }
    calls.push(wrong);
}

/// What a session is fed: flags, samples and the store's length.
struct Fed {
    mode: usize,
    anchor: u64,
    heard: Heard,
    capacity: usize,
}

fn open(mode: u64, anchor: u64, capacity: usize, first: &[f32]) -> Call {
    Call::Open {
        mode,
        anchor,
        flag_store: Length::Exactly(capacity as u64),
        sample_store: Length::AsAsked,
        samples: first.to_vec(),
    }
}

impl Fed {
    /// The flags from `from` on, with their samples.
    fn piece(&self, from: usize, m: usize) -> Call {
        let sound = &self.heard.sound;
        let flags = &sound.flags[from..from + m];
        Call::Feed {
            flag_store: Length::AsAsked,
            sample_store: Length::AsAsked,
            img: Length::AsAsked,
            votes: Length::AsAsked,
            flags: flags.iter().map(|&flag| u8::from(flag)).collect(),
            samples: sound.samples[4 * from + 4..4 * (from + m) + 4].to_vec(),
        }
    }

    /// Open, pieces, a refused call of each kind, read, and a feed too late.
    fn calls(&self, calls: &mut Vec<Call>, rng: &mut Rng) {
        let first = &self.heard.sound.samples[..4];
        refused_open(calls, rng, self, first);
        calls.push(open(self.mode as u64, self.anchor, self.capacity, first));
        let last = self.heard.full().unwrap_or(self.capacity);
        let last = last.min(self.capacity);
        let mut at = 0;
        for m in cuts(rng, last, self.heard.sound.flags.len()) {
            calls.push(self.piece(at, m));
            at += m;
        }
        let place = calls.len() - 1;
        calls.insert(place, Call::Read);
        calls.insert(place, spoilt(rng, self.piece(0, 2)));
        calls.push(Call::Read);
        calls.push(self.piece(0, 1));
        calls.push(spoilt(rng, self.piece(0, 2)));
        calls.push(Call::Read);
    }
}

/// Lengths of pieces that go past `last` with the last one, `all` at most.
fn cuts(rng: &mut Rng, last: usize, all: usize) -> Vec<usize> {
    let mut list: Vec<usize> = vec![rng.pick(&[0, 1, 63, 64, 65, 4_097])];
    let mut at = list[0];
    while at < last {
        let m = match list.len() {
            1 | 2 => rng.index(last / 2) + 1,
            3 if last > at + 1 => last - at - rng.index(2),
            _ => 1 + rng.index(500),
        };
        let m = m.min(all - at);
        list.push(m);
        at += m;
    }
    list
}

/// A feed with one cause to be refused.
fn spoilt(rng: &mut Rng, mut call: Call) -> Call {
    if let Call::Feed {
        flag_store,
        img,
        votes,
        flags,
        samples,
        ..
    } = &mut call
    {
        match rng.below(6) {
            0 => *flag_store = Length::Exactly(9),
            1 => *img = Length::Exactly(440_999),
            2 => *votes = Length::Exactly(143_999),
            3 => samples.truncate(7),
            4 => flags[1] = 2,
            _ => samples[5] = rng.pick(&[f32::NAN, 1.000_000_1, f32::NEG_INFINITY]),
        }
    }
    call
}

/// An open with one cause to be refused.
fn refused_open(calls: &mut Vec<Call>, rng: &mut Rng, fed: &Fed, first: &[f32]) {
    let (mode, anchor, capacity) = (fed.mode as u64, fed.anchor, fed.capacity);
    calls.push(match rng.below(6) {
        0 => open(16, FAR + 1, 0, first),
        1 => open(mode, FAR + 1, 0, first),
        2 => open(mode, anchor, shortest(fed.mode) - 1, first),
        3 => open(mode, anchor, (1 << 24) + 1, &first[..3]),
        4 => open(mode, anchor, capacity, &first[..3]),
        _ => open(mode, anchor, capacity, &[0.0, 1.5, 0.0, 0.0]),
    });
}

/// A picture in each mode, both parities of the Robot modes, each end.
fn sessions(calls: &mut Vec<Call>, rng: &mut Rng) {
    each_mode(calls, rng);
    parities(calls, rng);
    tight_stores(calls, rng);
    unfound(calls, rng);
}

fn each_mode(calls: &mut Vec<Call>, rng: &mut Rng) {
    for mode in 0..MODES {
        let anchor = [0, FAR, 1_000_001, rng.below(FAR)][mode % 4];
        let mut scene = Scene::clean(mode, 0, 0);
        scene.lead_in = 64 + rng.index(1_000);
        scene.tones = 0.0;
        scene.missing = 60;
        scene.slower = (rng.unit() - 0.5) / sync::line_width(spec(mode)) as f64 * 0.4;
        picture(scene, anchor, 0, rng).calls(calls, rng);
    }
}

fn parities(calls: &mut Vec<Call>, rng: &mut Rng) {
    for (mode, odd_first) in [(3, true), (3, false), (4, true), (4, false)] {
        let mut scene = Scene::clean(mode, 3_000, 0);
        scene.odd_first = odd_first;
        scene.tone_lines = 0..10;
        let anchor = rng.below(FAR);
        picture(scene, anchor, 0, rng).calls(calls, rng);
    }
}

/// Stores that are full one flag before the picture's last, and at it.
fn tight_stores(calls: &mut Vec<Call>, rng: &mut Rng) {
    for (mode, less) in [(4, 1), (8, 0), (8, 1), (9, 1)] {
        let mut scene = Scene::clean(mode, 3 * taken_at(mode, 0) / 2, 0);
        scene.tones = 0.0;
        picture(scene, 7, 1 + less, rng).calls(calls, rng);
    }
}

fn unfound(calls: &mut Vec<Call>, rng: &mut Rng) {
    for mode in [7, 8] {
        let capacity = shortest(mode) + rng.index(100);
        let mut sound = Sound::silent(capacity + 64);
        crate::train::bursts(&mut sound.flags, 200, 20, rng);
        let heard = Heard::new(mode, sound);
        let anchor = rng.below(FAR);
        let fed = Fed {
            mode,
            anchor,
            heard,
            capacity,
        };
        fed.calls(calls, rng);
    }
}

/// Windows and sessions of which several windows have the largest sum.
fn ties(calls: &mut Vec<Call>, rng: &mut Rng) {
    let top = |n: usize, start: usize, width: usize, windows: usize| {
        let mut counts = vec![1; n];
        add_top(&mut counts, 4, start, width, windows);
        window(width, counts)
    };
    calls.extend([top(9, 3, 3, 1), top(9, 8, 3, 2), top(30, 25, 7, 9)]);
    calls.extend([top(COLUMNS, 40, 8, 10), top(COLUMNS, 690, 42, 100)]);
    // a larger sum behind two that tie, then windows that all tie
    calls.push(window(2, vec![4, 4, 4, 0, 5, 5, 0]));
    calls.extend([window(5, vec![3, 1, 4, 1, 5]), window(700, vec![7; 65_536])]);
    for mode in [8, 13] {
        let mut sound = shaped::three_counts(rng, mode);
        let capacity = shortest(mode);
        sound.silence(capacity + 64);
        let fed = Fed {
            mode,
            anchor: rng.below(FAR),
            heard: Heard::new(mode, sound),
            capacity,
        };
        fed.calls(calls, rng);
        let pulse = (spec(mode).sync_seconds * RATE / 4.0) as usize;
        let mut scene = Scene::clean(mode, 3 * taken_at(mode, 0) / 2, 0);
        scene.longer = 2 * pulse;
        scene.gap = (40, usize::MAX);
        picture(scene, rng.below(FAR), 2, rng).calls(calls, rng);
    }
}

/// A scene in a roomy store, or in one of f + P + 1 - `tight` flags.
fn picture(mut scene: Scene, anchor: u64, tight: usize, rng: &mut Rng) -> Fed {
    let mode = scene.mode;
    scene.flags = shortest(mode) + scene.lead_in + 9_000;
    let heard = Heard::new(mode, scene.sound(rng));
    let roomy = shortest(mode) + 8_000;
    let capacity = match heard.full() {
        Some(full) if tight > 0 => full + 1 - tight,
        _ => roomy,
    };
    Fed {
        mode,
        anchor,
        heard,
        capacity,
    }
}
