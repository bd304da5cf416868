//! `compare SEED N [--from ROUND]` or `compare SEED --seconds S [--from ROUND]`
//! runs the port and the Rust side by side on random and shaped inputs.

use beside::run::Run;
use std::process::ExitCode;
use std::time::{Duration, Instant};

const USAGE: &str = "usage: compare SEED N | SEED --seconds S, each also with --from ROUND";

/// How long to go on.
enum Until {
    Rounds(u64),
    Time(Duration),
}

struct Arguments {
    seed: u64,
    until: Until,
    from: u64,
}

fn arguments() -> Option<Arguments> {
    let mut words = std::env::args().skip(1);
    let seed = words.next()?.parse().ok()?;
    let (mut until, mut from) = (None, 0);
    while let Some(word) = words.next() {
        match word.as_str() {
            "--from" => from = words.next()?.parse().ok()?,
            "--seconds" => {
                let seconds = words.next()?.parse().ok()?;
                until = Some(Until::Time(Duration::from_secs(seconds)));
            }
            number => until = Some(Until::Rounds(number.parse().ok()?)),
        }
    }
    Some(Arguments {
        seed,
        until: until?,
        from,
    })
}

fn main() -> ExitCode {
    let Some(Arguments { seed, until, from }) = arguments() else {
        eprintln!("{USAGE}");
        return ExitCode::from(2);
    };
    let begin = Instant::now();
    let mut run = Run::new(seed);
    let mut rounds = 0;
    while match until {
        Until::Rounds(number) => rounds < number,
        Until::Time(time) => begin.elapsed() < time,
    } {
        run.make_round(from + rounds);
        rounds += 1;
    }
    let seconds = begin.elapsed().as_secs_f64();
    println!("seed {seed}, rounds from {from}, {seconds:.0} seconds");
    if run.finish(rounds) {
        ExitCode::SUCCESS
    } else {
        ExitCode::FAILURE
    }
}
