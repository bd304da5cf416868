//! Recordings over the Rust: `recording replay FILE...` makes the calls again
//! and prints what differs, `recording record FILE` writes a recording with
//! the Rust's answers, `recording sample SEED` writes one of calls that it
//! makes up, with `--version 1` before the seed a short one of that version.
//! Status 0: done; 1: an answer differs; 2: a file or an argument is not what it
//! should be.

use drive::machine::Rust;
use recording::commands::{record_file, replay_files};
use recording::Version;
use std::cell::Cell;
use std::path::{Path, PathBuf};
use std::process::ExitCode;
use std::rc::Rc;

const USAGE: &str = "usage: recording replay FILE... | record FILE | sample [--version 1] SEED";

fn main() -> ExitCode {
    let words: Vec<String> = std::env::args().skip(1).collect();
    let words: Vec<&str> = words.iter().map(String::as_str).collect();
    let refused = Rc::new(Cell::new(0));
    let done = match words[..] {
        ["replay", ref files @ ..] if !files.is_empty() => {
            let files: Vec<PathBuf> = files.iter().map(PathBuf::from).collect();
            replay_files(&files, || Box::new(Rust::counting(refused.clone())))
        }
        ["record", file] => {
            let mut rust = Rust::counting(refused.clone());
            record_file(Path::new(file), &mut rust).map(|()| true)
        }
        ["sample", seed] => sample(seed, Version::Two),
        ["sample", "--version", "1", seed] => sample(seed, Version::One),
        _ => Err(USAGE.to_owned()),
    };
    if refused.get() > 0 {
        let number = refused.get();
        eprintln!("{number} refusals: by the documents' tables; the Rust refuses nothing");
    }
    match done {
        Ok(true) => ExitCode::SUCCESS,
        Ok(false) => ExitCode::from(1),
        Err(trouble) => {
            eprintln!("recording: {trouble}");
            ExitCode::from(2)
        }
    }
}

fn sample(seed: &str, version: Version) -> Result<bool, String> {
    let seed = seed.parse().map_err(|_| USAGE.to_owned())?;
    print!("{}", drive::sample::text(seed, version));
    Ok(true)
}
