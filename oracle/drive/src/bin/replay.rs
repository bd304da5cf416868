//! `replay ROOT [NAME ...]` reads the vector files of the repository ROOT, all
//! or those of the names given, and asks the Rust again.

use drive::again::{self, Judge, Vector};
use drive::live::Live;
use std::path::Path;
use std::{env, fs, process::ExitCode};

/// Name, file, whether its records are long, and who judges them.
const ALL: &[(&str, &str, bool, Judge)] = &[
    ("ieee", "vectors", false, again::ieee),
    ("modespec", "vectors", false, again::modes),
    ("pulse", "vectors", true, again::pulse),
    ("sync", "vectors", true, again::find_sync),
    ("dsp", "vectors", true, again::sound),
    ("sync_start", "vectors", true, again::start),
    ("sync_start", "inner", true, again::start),
    ("session", "vectors", true, again::session),
    ("card", "vectors", true, again::card),
];

fn main() -> ExitCode {
    let mut arguments = env::args().skip(1);
    let Some(root) = arguments.next().filter(|word| !word.starts_with("--")) else {
        eprintln!("usage: replay ROOT [NAME ...]");
        return ExitCode::FAILURE;
    };
    let wanted: Vec<String> = arguments.collect();
    let mut right = true;
    for &(name, file, long, judge) in ALL {
        if !wanted.is_empty() && !wanted.iter().any(|w| w == name) {
            continue;
        }
        let place = format!("crates/{name}_vectors/data/{file}");
        match replay(&Path::new(&root).join(&place), long, judge) {
            Ok((number, wrong)) => {
                println!("{place}: {number} vectors, {wrong} wrong");
                right &= wrong == 0 && number > 0;
            }
            Err(message) => {
                eprintln!("{place}: {message}");
                right = false;
            }
        }
    }
    if right {
        ExitCode::SUCCESS
    } else {
        ExitCode::FAILURE
    }
}

/// How many records a file has, and how many the Rust answers otherwise.
fn replay(file: &Path, long: bool, judge: Judge) -> Result<(usize, usize), String> {
    let bytes = fs::read(file).map_err(|error| error.to_string())?;
    let mut rest = &bytes[..];
    let mut live = Live::default();
    let (mut number, mut wrong) = (0, 0);
    while !rest.is_empty() {
        let vector = Vector::next(&mut rest, long);
        let vector = vector.ok_or_else(|| format!("record {number} is cut off"))?;
        let like = judge(&vector, &mut live);
        let like = like.ok_or_else(|| format!("record {number} can't be read"))?;
        if !like && wrong < 5 {
            eprintln!("record {number} (op {}) differs", vector.op);
        }
        wrong += usize::from(!like);
        number += 1;
    }
    Ok((number, wrong))
}
