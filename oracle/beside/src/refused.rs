//! Calls that are refused for one cause or several, and calls at the limits
//! beside them.

use crate::run::Run;
use drive::modes::MODES;
use drive::plain::{shortest, IMG, MOST_FLAGS, VOTES};
use drive::rng::Rng;
use drive::scene::is_robot;
use drive::tally::Tally;
use recording::{Answer, Call, Length};

/// Largest anchor and centre.
const FAR: u64 = 1 << 62;
/// Samples that are refused.
const UNSOUND: [f32; 6] = [
    f32::NAN,
    f32::INFINITY,
    f32::NEG_INFINITY,
    1.000_000_1,
    -1.000_000_1,
    2.0,
];

/// Each refusal of each call.
#[must_use]
pub fn tally() -> Tally {
    let mut tally = Tally::new(
        "refusals",
        &[
            "several causes, the lowest given",
            "at a limit, not refused",
            "a store of 16,777,216 flags opened",
        ],
    );
    let numbers: [(&str, &[u64]); 13] = [
        ("columns", &[1, 9]),
        ("window", &[9]),
        ("quality", &[1, 9]),
        ("edge", &[9]),
        ("find", &[1, 2, 5, 6, 7]),
        ("fill", &[4, 5, 8]),
        ("probe", &[3, 6, 8]),
        ("open", &[1, 4, 5, 6, 8]),
        ("feed", &[5, 6, 7, 8, 10]),
        ("read", &[11]),
        ("card1", &[12, 14]),
        ("uncard", &[12, 13, 14]),
        ("cardof", &[11]),
    ];
    for (call, numbers) in numbers {
        for number in numbers {
            tally.announce(format!("{call} refused {number}"));
        }
    }
    tally
}

/// Calls of each kind, and now and then the longest lists.
pub fn round(run: &mut Run, rng: &mut Rng) {
    for make in [
        columns, window, quality, edge, find, fill, probe, open, open,
    ] {
        let often = rng.pick(&[120, 200, 333]);
        let mut causes = Causes { rng, often, met: 0 };
        let call = make(&mut causes);
        let met = causes.met;
        let refused = matches!(run.make(&call), Answer::Refused(_));
        let tally = &mut run.classes.refused;
        let name = "several causes, the lowest given";
        tally.note(name, refused && met > 1);
        tally.note("at a limit, not refused", !refused);
    }
    if run.round % 20 == 3 {
        longest(run, rng);
    }
}

/// Decides which causes a call gets.
struct Causes<'a> {
    rng: &'a mut Rng,
    /// Of a thousand causes, how many are there.
    often: u64,
    met: u32,
}

impl Causes<'_> {
    /// Whether this cause is there.
    fn has(&mut self) -> bool {
        let has = self.rng.permille(self.often);
        self.met += u32::from(has);
        has
    }

    fn mode(&mut self) -> u64 {
        if self.has() {
            self.rng.pick(&[16, 17, 255])
        } else {
            self.rng.below(MODES as u64)
        }
    }

    /// The limit, or one above it.
    fn most(&mut self, limit: u64) -> u64 {
        limit + u64::from(self.has())
    }

    /// A list of this length with a sample at the limit, or beyond it.
    fn sound(&mut self, n: usize) -> Vec<f32> {
        let mut sound: Vec<f32> = (0..n).map(|_| self.rng.sample()).collect();
        if n > 0 {
            let place = self.rng.index(n);
            sound[place] = self.rng.pick(&[1.0, -1.0]);
            if self.has() {
                sound[place] = self.rng.pick(&UNSOUND);
            }
        }
        sound
    }
}

fn columns(causes: &mut Causes) -> Call {
    Call::Columns {
        mode: causes.mode(),
        n: causes.most(65_536),
    }
}

fn window(causes: &mut Causes) -> Call {
    let n = causes.rng.pick(&[0, 1, 2, 4, 700, 65_536, 65_537]);
    // not much wider: the Rust's side takes n times the width for its count
    let width = match causes.rng.below(4) {
        0 => 0,
        1 => n + 1,
        _ => n.min(700),
    };
    Call::Window {
        width,
        counts: vec![3; n as usize],
    }
}

fn quality(causes: &mut Causes) -> Call {
    let n = causes.rng.pick(&[0, 700, 65_536, 65_537]);
    Call::Quality {
        mode: causes.mode(),
        lines: causes.most(65_536),
        counts: vec![7; n],
    }
}

fn edge(causes: &mut Causes) -> Call {
    let n = causes.rng.pick(&[0, 699, 700, 700, 701]);
    let mut counts = vec![0; n];
    if n > 0 {
        let place = causes.rng.index(n);
        counts[place] = causes.most(1_000_000) as u32;
    }
    Call::Edge { counts }
}

fn find(causes: &mut Causes) -> Call {
    let below = f64::from_bits(8_000.0_f64.to_bits() - 1);
    let above = f64::from_bits(48_000.0_f64.to_bits() + 1);
    let beyond = [below, above, 0.0, -11_025.0, f64::NAN, f64::INFINITY];
    let rate = if causes.has() {
        causes.rng.pick(&beyond)
    } else {
        causes.rng.pick(&[8_000.0, 48_000.0])
    };
    let mut lengths = [IMG as u64, VOTES as u64];
    if causes.has() {
        let which = causes.rng.index(2);
        lengths[which] -= causes.rng.pick(&[1, lengths[which]]);
    }
    let mut flags = vec![1; 1 + causes.rng.index(40)];
    if causes.has() {
        let place = causes.rng.index(flags.len());
        flags[place] = causes.rng.pick(&[2, 3, 255]);
    }
    Call::Find {
        mode: causes.mode(),
        rate,
        img: Length::Exactly(lengths[0]),
        votes: Length::Exactly(lengths[1]),
        flags,
    }
}

fn fill(causes: &mut Causes) -> Call {
    let centre = causes.most(FAR);
    let buffer = if causes.has() {
        causes.rng.pick(&[0, 511, 513, 1_024])
    } else {
        512
    };
    let n = causes.rng.index(40);
    Call::Fill {
        centre,
        buffer: Length::Exactly(buffer),
        sound: causes.sound(n),
    }
}

fn probe(causes: &mut Causes) -> Call {
    let above = f64::from_bits(5_000.0_f64.to_bits() + 1);
    let beyond = [above, -above, f64::NAN, f64::INFINITY, f64::NEG_INFINITY];
    let shift = if causes.has() {
        causes.rng.pick(&beyond)
    } else {
        causes.rng.pick(&[5_000.0, -5_000.0])
    };
    let n = if causes.has() {
        causes.rng.pick(&[0, 257, 259])
    } else {
        258
    };
    let mut spectrum: Vec<f32> = (0..n).map(|_| causes.rng.sample() * 9.0).collect();
    if n > 0 && causes.has() {
        let place = causes.rng.index(n);
        spectrum[place] = causes
            .rng
            .pick(&[f32::NAN, f32::INFINITY, f32::NEG_INFINITY]);
    }
    Call::Probe { shift, spectrum }
}

/// Length of a sample store, which only Robot 24 and 36 need.
fn sample_store(causes: &mut Causes, mode: u64, flags: u64) -> u64 {
    if !is_robot(mode as usize) {
        return causes.rng.below(40);
    }
    4 * flags + 4 - u64::from(causes.has())
}

fn open(causes: &mut Causes) -> Call {
    let mode = causes.mode();
    let least = if mode < 16 {
        shortest(mode as usize) as u64
    } else {
        causes.rng.below(9)
    };
    let flags = least.saturating_sub(u64::from(causes.has()));
    let samples = sample_store(causes, mode, flags);
    let n = if causes.has() {
        causes.rng.pick(&[0, 3, 5])
    } else {
        4
    };
    Call::Open {
        mode,
        anchor: causes.most(FAR),
        flag_store: Length::Exactly(flags),
        sample_store: Length::Exactly(samples),
        samples: causes.sound(n),
    }
}

/// The longest list and store, and one flag more.
fn longest(run: &mut Run, rng: &mut Rng) {
    let mut flags = vec![0; MOST_FLAGS + 1];
    flags[rng.index(MOST_FLAGS)] = rng.pick(&[0, 2]);
    let mode = rng.pick(&[0, 5, 8, 12, 16]);
    run.make(&Call::Find {
        mode,
        rate: 11_025.0,
        img: Length::AsAsked,
        votes: Length::AsAsked,
        flags,
    });
    let mode = rng.pick(&[0, 5, 8, 12]);
    for more in [0, 1] {
        let answer = run.make(&Call::Open {
            mode,
            anchor: rng.below(FAR),
            flag_store: Length::Exactly(MOST_FLAGS as u64 + more),
            sample_store: Length::AsAsked,
            samples: vec![0.0; 4],
        });
        let opened = more == 0 && answer == Answer::Opened;
        let name = "a store of 16,777,216 flags opened";
        run.classes.refused.note(name, opened);
    }
}
