//! `vectors ROOT [NAME ...]` writes crates/NAME_vectors/data of the repository
//! ROOT, for all names or those given, and prints what the inputs reached.
//! `vectors --check ROOT [NAME ...]` compares instead of writing.

use drive::record::Records;
use std::path::Path;
use std::{env, process::ExitCode};

type Maker = fn() -> Result<Records, String>;

/// Name, file and what makes it.
const ALL: &[(&str, &str, Maker)] = &[
    ("ieee", "vectors", drive::ieee::vectors),
    ("modespec", "vectors", drive::modes::vectors),
    ("pulse", "vectors", drive::pulse::vectors),
    ("sync", "vectors", drive::find_sync::vectors),
    ("dsp", "vectors", drive::dsp::vectors),
    ("sync_start", "vectors", drive::start::vectors),
    ("sync_start", "inner", drive::inner::vectors),
    ("session", "vectors", drive::session::vectors),
    ("card", "vectors", drive::cards::vectors),
];

fn main() -> ExitCode {
    match run() {
        Ok(()) => ExitCode::SUCCESS,
        Err(message) => {
            eprintln!("{message}");
            ExitCode::FAILURE
        }
    }
}

fn run() -> Result<(), String> {
    let mut names: Vec<&str> = ALL.iter().map(|(name, _, _)| *name).collect();
    names.dedup();
    let usage = format!(
        "usage: vectors [--check] ROOT [NAME ...], NAME of {}",
        names.join(", ")
    );
    let mut arguments = env::args().skip(1).peekable();
    let check = arguments.next_if(|word| word == "--check").is_some();
    let root = arguments.next().filter(|word| !word.starts_with("--"));
    let root = root.ok_or(&usage)?;
    let root = Path::new(&root);
    if !root.join("crates").is_dir() {
        return Err(format!("{}: no folder crates there", root.display()));
    }
    let wanted: Vec<String> = arguments.collect();
    if let Some(name) = wanted.iter().find(|name| !names.contains(&name.as_str())) {
        return Err(format!("no vectors {name}. {usage}"));
    }
    for (name, file, make) in ALL {
        if wanted.is_empty() || wanted.iter().any(|w| w == *name) {
            let place = format!("crates/{name}_vectors/data/{file}");
            finish(&make()?, root, &place, check)?;
        }
    }
    Ok(())
}

/// Write or compare one file.
fn finish(records: &Records, root: &Path, place: &str, check: bool) -> Result<(), String> {
    let file = root.join(place);
    let failed = |error| format!("{place}: {error}");
    let verdict = if !check {
        records.write(&file).map_err(failed)?;
        "written"
    } else if records.is_in(&file).map_err(failed)? {
        "the same"
    } else {
        return Err(format!("{place}: not what this machine's Rust gives"));
    };
    let (number, bytes) = (records.number(), records.len());
    println!("{place}: {number} vectors, {bytes} bytes, {verdict}");
    Ok(())
}
