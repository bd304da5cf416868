//! Random arguments for each call of the C interface, valid and not.
//!
//!     fuzz SEED ROUNDS
//!
//! The number that a call gives is compared with the one that its arguments
//! ask for, and all lent memory with what the call may write; then the safe
//! library's answers in other float environments with those in the default one.
//! Prints how often each call was answered and refused with each number; one
//! that was never reached is named, and the status is 1.

mod card;
mod feed;
mod float_env;
mod lent;
mod live;
mod record;
mod rng;
mod single;
mod tally;
mod work;

use live::Live;
use rng::Rng;
use std::process::ExitCode;
use tally::Tally;

/// Longest flag store and flag list.
const MOST_FLAGS: usize = 16_777_216;
/// Sessions that are open at a time.
const SESSIONS: usize = 4;

/// What is wrong, in words.
type Outcome = Result<(), String>;

fn ensure(holds: bool, what: &str) -> Outcome {
    if holds {
        Ok(())
    } else {
        Err(what.to_owned())
    }
}

/// The lowest number whose cause holds, 0 for none. The causes are in order.
fn due(causes: &[(bool, u32)]) -> u32 {
    causes.iter().find(|c| c.0).map_or(0, |c| c.1)
}

/// Refusal 8 for a sample.
fn unsound(x: f32) -> bool {
    !(-1.0..=1.0).contains(&x)
}

fn round(rng: &mut Rng, tally: &mut Tally, sessions: &mut [Live]) -> Outcome {
    for _ in 0..8 {
        single::sizes_and_columns(rng, tally)?;
        single::window(rng, tally)?;
        single::quality(rng, tally)?;
        single::edge(rng, tally)?;
        single::sync_window(rng, tally)?;
        single::has_sync(rng, tally)?;
        card::bytes(rng, tally)?;
        card::fields(rng, tally)?;
    }
    single::find_sync(rng, tally)?;
    live::wild(rng, tally)?;
    let (a, b) = (rng.below(SESSIONS), rng.below(SESSIONS));
    if sessions[a].record.phase > 1 && rng.once_in(4) {
        sessions[a] = live::valid(rng, tally)?;
    }
    feed::own(rng, tally, &mut sessions[a])?;
    record::read(tally, sessions[a].record)?;
    card::own(rng, tally, &sessions[a])?;
    card::foreign(rng, tally, &sessions[a])?;
    feed::own_wild(rng, tally, &sessions[a])?;
    feed::foreign(rng, tally, &sessions[a], &sessions[b])
}

fn run(seed: u64, rounds: u64) -> Result<bool, String> {
    let mut rng = Rng::new(seed);
    let mut tally = Tally::default();
    let mut sessions = Vec::new();
    for _ in 0..SESSIONS {
        sessions.push(live::valid(&mut rng, &mut tally)?);
    }
    let environments = float_env::followed();
    for number in 0..rounds {
        let mut outcome = round(&mut rng, &mut tally, &mut sessions);
        if environments {
            outcome = outcome.and_then(|()| float_env::all(&mut rng, &mut tally));
        }
        outcome.map_err(|what| format!("round {number}: {what}"))?;
    }
    let missed = tally.print(environments);
    if !environments {
        println!("the default float environment alone: MXCSR is not followed here (valgrind)");
    }
    for name in &missed {
        println!("not reached: {name}");
    }
    println!(
        "fuzz {seed} {rounds}: no wrong answer, {} not reached",
        missed.len()
    );
    Ok(missed.is_empty())
}

fn main() -> ExitCode {
    let numbers: Vec<u64> = std::env::args().skip(1).flat_map(|a| a.parse()).collect();
    let [seed, rounds] = numbers[..] else {
        eprintln!("usage: fuzz SEED ROUNDS");
        return ExitCode::from(2);
    };
    match run(seed, rounds) {
        Ok(true) => ExitCode::SUCCESS,
        Ok(false) => ExitCode::from(1),
        Err(what) => {
            println!("fuzz {seed} {rounds}: {what}");
            ExitCode::from(1)
        }
    }
}
