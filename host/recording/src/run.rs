//! Making the calls of a recording again.

use crate::{Answer, Call, Entry, Recording};
use std::fmt::Write as _;

/// Something that answers calls: the port, or the Rust.
pub trait Machine {
    /// Makes the call. `None` where this machine does not have it.
    fn make(&mut self, call: &Call) -> Option<Answer>;
}

/// What a replay found.
#[derive(Clone, Debug, Default, PartialEq, Eq)]
pub struct Outcome {
    pub passed: usize,
    pub failed: usize,
    /// Calls that the machine does not have, or that nothing here has yet.
    pub left_out: usize,
    /// A line for each answer that differs.
    pub differences: Vec<String>,
    /// A line for each call that nothing here has yet.
    pub notes: Vec<String>,
}

/// A recording that was written.
#[derive(Clone, Debug, Default, PartialEq, Eq)]
pub struct Recorded {
    pub text: String,
    /// Calls that the machine does not have, or that nothing here has yet.
    pub left_out: usize,
    /// A line for each call that nothing here has yet.
    pub notes: Vec<String>,
}

/// Makes the calls in turn.
struct Turns<'a> {
    machine: &'a mut dyn Machine,
    /// Whether a call that was left out opened or changed the session.
    lost: bool,
    /// Lines that were left out, and why.
    notes: Vec<(usize, String)>,
}

impl<'a> Turns<'a> {
    fn new(machine: &'a mut dyn Machine) -> Self {
        Self {
            machine,
            lost: false,
            notes: Vec::new(),
        }
    }

    fn make(&mut self, entry: &Entry) -> Option<Answer> {
        if let Call::Later {
            missing, session, ..
        } = &entry.call
        {
            let why = format!("left out, this reader does not have {missing} yet");
            self.notes.push((entry.line, why));
            self.lost |= session;
            return None;
        }
        if self.lost && entry.call.is_on_session() {
            let why = "left out, its session was opened or changed by a line left out";
            self.notes.push((entry.line, why.to_owned()));
            return None;
        }
        let answer = self.machine.make(&entry.call)?;
        if answer == Answer::Opened {
            self.lost = false;
        }
        Some(answer)
    }
}

/// Makes each call again and compares the fields that its line has.
pub fn replay(name: &str, recording: &Recording, machine: &mut dyn Machine) -> Outcome {
    let mut outcome = Outcome::default();
    let mut turns = Turns::new(machine);
    for entry in &recording.entries {
        let made = turns.make(entry);
        let (Some(recorded), Some(got)) = (&entry.answer, made) else {
            outcome.left_out += 1;
            continue;
        };
        let (recorded, got) = (recorded.answer.text(recorded.form), got.text(recorded.form));
        if recorded == got {
            outcome.passed += 1;
        } else {
            outcome.failed += 1;
            outcome.differences.push(format!(
                "{name}:{}: recorded {recorded}, got {got}",
                entry.line
            ));
        }
    }
    let notes = turns.notes.into_iter();
    outcome.notes = notes
        .map(|(line, why)| format!("{name}:{line}: {why}"))
        .collect();
    outcome
}

/// The recording with this machine's answers, in its own version and the form of
/// that version.
pub fn record(recording: &Recording, machine: &mut dyn Machine) -> Recorded {
    let mut recorded = Recorded {
        text: format!("{}\n", recording.version.header()),
        ..Recorded::default()
    };
    let mut turns = Turns::new(machine);
    for entry in &recording.entries {
        match turns.make(entry) {
            Some(answer) => {
                let answer = answer.text(recording.version.form());
                let _ = writeln!(recorded.text, "{} = {answer}", entry.call);
            }
            None => recorded.left_out += 1,
        }
    }
    let notes = turns.notes.into_iter();
    recorded.notes = notes
        .map(|(line, why)| format!("line {line}: {why}"))
        .collect();
    recorded
}
