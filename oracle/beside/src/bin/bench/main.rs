//! Benchmarks of the port beside the Rust, on the same input in one run, both
//! optimised. Prints the tables of docs/BENCHMARKS.md.
//!
//!     cargo run --release --bin bench [REPEATS] [PART ...]
//!
//! The parts are find, edge, start, feed, memory and stations; without one, all.
//! A time is the least of the repeats, in processor time of the thread; Rust
//! and port take turns.

mod clock;
mod edge;
mod feed;
mod find;
mod input;
mod load;
mod start;

use std::process::ExitCode;

/// Name of a part, and what prints its table.
type Part = (&'static str, fn(usize));

const PARTS: [Part; 6] = [
    ("find", find::print),
    ("edge", edge::print),
    ("start", start::print),
    ("feed", feed::print),
    ("memory", load::print_memory),
    ("stations", load::print_stations),
];

/// Repeats and the names of parts.
fn arguments() -> Result<(usize, Vec<String>), String> {
    let mut words: Vec<String> = std::env::args().skip(1).collect();
    let first = words.first().and_then(|word| word.parse().ok());
    if first.is_some() {
        words.remove(0);
    }
    match words
        .iter()
        .find(|w| PARTS.iter().all(|(name, _)| name != w))
    {
        Some(word) => Err(format!("no part is called {word}")),
        None if first == Some(0) => Err("0 repeats measure nothing".to_owned()),
        None => Ok((first.unwrap_or(3), words)),
    }
}

fn main() -> ExitCode {
    let (repeats, wanted) = match arguments() {
        Ok(both) => both,
        Err(trouble) => {
            eprintln!("bench: {trouble}");
            eprintln!("usage: bench [REPEATS] [find|edge|start|feed|memory|stations ...]");
            return ExitCode::from(2);
        }
    };
    for (name, print) in PARTS {
        if wanted.is_empty() || wanted.iter().any(|word| word == name) {
            print(repeats);
            println!();
        }
    }
    ExitCode::SUCCESS
}
