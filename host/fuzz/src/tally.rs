//! How often each call was answered, and refused with each number.

use std::collections::BTreeMap;
use std::fmt::Write as _;

/// Each call with the numbers that it can give, 0 meaning an answer.
const CALLS: [(&str, &[u32]); 14] = [
    ("sizes", &[0, 1]),
    ("columns", &[0, 1, 9]),
    ("window", &[0, 9]),
    ("quality", &[0, 1, 9]),
    ("edge", &[0, 9]),
    ("find_sync", &[0, 1, 2, 5, 6, 7]),
    ("sync_window", &[0, 4, 5, 8]),
    ("has_sync", &[0, 3, 6, 8]),
    ("open", &[0, 1, 4, 5, 6, 8]),
    ("feed", &[0, 5, 6, 7, 8, 10]),
    ("read", &[0, 11]),
    ("write_card", &[0, 12, 14]),
    ("read_card", &[0, 12, 13, 14]),
    ("session_card", &[0, 11]),
];

/// What must be reached beside the numbers.
const CASES: [&str; 26] = [
    "window: one has the largest sum",
    "window: several tie",
    "window: all tie",
    "has_sync: yes",
    "has_sync: no",
    "read: reported",
    "read: unfound",
    "read: cut short",
    "feed: a start, and no windows tie",
    "feed: a start, and windows tie",
    "feed: a random record",
    "feed: a record with a field changed",
    "feed: another session's record",
    "feed: a record not its own, some flags taken",
    "write_card: reported",
    "write_card: unfound",
    "write_card: cut short",
    "read_card: reported",
    "read_card: unfound",
    "read_card: cut short",
    "read_card: a card with bytes changed, still one",
    "session_card: reported",
    "session_card: unfound",
    "session_card: cut short",
    "session_card: of no session, with a slant of no index",
    "session_card: of no session, and refused by the writer",
];

/// What must be reached where MXCSR is followed.
const ENVIRONMENTS: [&str; 7] = [
    "float environment: other sizes or columns",
    "float environment: another quality",
    "float environment: another window",
    "float environment: another decision",
    "float environment: another report",
    "float environment: another card",
    "float environment: a session to its end",
];

#[derive(Default)]
pub struct Tally {
    numbers: BTreeMap<(&'static str, u32), u64>,
    cases: BTreeMap<&'static str, u64>,
}

impl Tally {
    /// Counts a call, if the number is one that it can give and the one that
    /// its arguments ask for.
    pub fn count(&mut self, call: &'static str, asked: u32, got: u32) -> Result<(), String> {
        *self.numbers.entry((call, got)).or_default() += 1;
        let documented = CALLS
            .iter()
            .any(|(name, of)| *name == call && of.contains(&got));
        if documented && asked == got {
            return Ok(());
        }
        Err(format!("{call} gave {got}, and {asked} was due"))
    }

    pub fn case(&mut self, case: &'static str) {
        *self.cases.entry(case).or_default() += 1;
    }

    /// Prints the counts. Gives the names of what was not reached.
    pub fn print(&self, environments_tried: bool) -> Vec<String> {
        let mut missed = Vec::new();
        for (call, of) in CALLS {
            let mut line = String::new();
            for number in of {
                let n = self.numbers.get(&(call, *number)).copied().unwrap_or(0);
                let name = match number {
                    0 => "answered".to_owned(),
                    k => format!("refused {k}"),
                };
                let _ = write!(line, "  {name}: {n}");
                if n == 0 {
                    missed.push(format!("{call}, {name}"));
                }
            }
            println!("{call:12}{line}");
        }
        let environments: &[&str] = if environments_tried {
            &ENVIRONMENTS
        } else {
            &[]
        };
        for case in CASES.iter().chain(environments) {
            let n = self.cases.get(case).copied().unwrap_or(0);
            println!("{case}: {n}");
            if n == 0 {
                missed.push((*case).to_owned());
            }
        }
        missed
    }
}
