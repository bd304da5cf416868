//! A run: its counts, its classes and its differences.

use crate::port::Made;
use crate::{cards, find, fold, port, refused, sessions, sound};
use drive::machine::Rust;
use drive::rng::Rng;
use drive::tally::Tally;
use recording::{Answer, Call, Machine};

/// A run of at least this many rounds has to reach every class.
pub const WHOLE_RUN: u64 = 200;

/// How much of a long call is printed.
const PRINTED: usize = 300;

/// What the inputs reached.
pub struct Classes {
    pub fold: Tally,
    pub find: Tally,
    pub sound: Tally,
    pub session: Tally,
    pub cards: Tally,
    pub refused: Tally,
}

/// Counts of a run.
pub struct Run {
    seed: u64,
    /// The round that is running.
    pub round: u64,
    rust: Rust,
    compared: u64,
    calls: Tally,
    pub classes: Classes,
    pub differences: u64,
}

/// The call's name in a recording.
fn name(call: &Call) -> &'static str {
    match call {
        Call::Columns { .. } => "columns",
        Call::Window { .. } => "window",
        Call::Quality { .. } => "quality",
        Call::Edge { .. } => "edge",
        Call::Find { .. } => "find",
        Call::Fill { .. } => "fill",
        Call::Probe { .. } => "probe",
        Call::Open { .. } => "open",
        Call::Feed { .. } => "feed",
        Call::Read => "read",
        Call::WriteCard { .. } => "card1",
        Call::ReadCard { .. } => "uncard",
        Call::SessionCard => "cardof",
        Call::Later { .. } => unreachable!("no call is made that is not here yet"),
    }
}

impl Run {
    /// A run before its first round.
    #[must_use]
    pub fn new(seed: u64) -> Self {
        let names = [
            "columns", "window", "quality", "edge", "find", "fill", "probe", "open", "feed",
            "read", "card1", "uncard", "cardof",
        ];
        Self {
            seed,
            round: 0,
            rust: Rust::default(),
            compared: 0,
            calls: Tally::new("calls compared", &names),
            classes: Classes {
                fold: fold::tally(),
                find: find::tally(),
                sound: sound::tally(),
                session: sessions::tally(),
                cards: cards::tally(),
                refused: refused::tally(),
            },
            differences: 0,
        }
    }

    /// One round. Its numbers depend on the seed and the round alone.
    pub fn make_round(&mut self, round: u64) {
        self.round = round;
        let mut rng = Rng::new(self.seed.wrapping_mul(0x1_0000_01b3).wrapping_add(round));
        fold::round(self, &mut rng);
        find::round(self, &mut rng);
        sound::round(self, &mut rng);
        refused::round(self, &mut rng);
        sessions::round(self, &mut rng);
        cards::round(self, &mut rng);
    }

    /// Makes a call without a session on both sides. Gives the Rust's answer.
    pub fn make(&mut self, call: &Call) -> Answer {
        let rust = self.rust.make(call).expect("the Rust has this call");
        let (port, fault) = port::make(call);
        let input = || call.to_string();
        self.compare(name(call), input, &rust, (port, fault));
        rust
    }

    /// Counts a call and compares the two answers by their bits.
    pub fn compare(
        &mut self,
        name: &str,
        input: impl Fn() -> String,
        rust: &Answer,
        (port, fault): Made,
    ) {
        self.compared += 1;
        self.calls.note(name, true);
        if let Answer::Refused(number) = rust {
            let class = format!("{name} refused {number}");
            self.classes.refused.note(&class, true);
        }
        let (rust, port) = (rust.to_string(), port.to_string());
        if rust != port {
            let what = format!("the Rust {rust}, the port {port}");
            self.differ(&input(), &what);
        }
        if let Some(what) = fault {
            self.differ(&input(), what);
        }
    }

    /// Counts and prints a difference.
    pub fn differ(&mut self, input: &str, what: &str) {
        self.differences += 1;
        let mut text = input.to_string();
        if text.len() > PRINTED {
            let length = text.len();
            text.truncate(PRINTED);
            text += &format!(".. ({length} characters)");
        }
        let (seed, round) = (self.seed, self.round);
        println!("seed {seed}, round {round}: {text}: {what}");
        println!("  again alone: oracle/compare {seed} 1 --from {round}");
    }

    /// Prints all counts, and the last line. Gives whether all is well.
    #[must_use]
    pub fn finish(&self, rounds: u64) -> bool {
        let classes = &self.classes;
        let tallies = [
            &self.calls,
            &classes.fold,
            &classes.find,
            &classes.sound,
            &classes.session,
            &classes.cards,
            &classes.refused,
        ];
        let mut whole = true;
        for tally in tallies {
            if let Err(missed) = tally.report() {
                let due = rounds >= WHOLE_RUN;
                whole &= !due;
                println!("{missed}{}", if due { "" } else { " (a short run)" });
            }
        }
        let (compared, differences) = (self.compared, self.differences);
        println!("{rounds} rounds, {compared} calls compared, {differences} differences");
        differences == 0 && whole
    }
}
