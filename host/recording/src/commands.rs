//! The verbs `replay` and `record`, for every machine.

use crate::{parse, record, replay, Machine, Source};
use std::path::{Path, PathBuf};

fn folder(file: &Path) -> &Path {
    file.parent().unwrap_or_else(|| Path::new("."))
}

fn text(file: &Path) -> Result<String, String> {
    std::fs::read_to_string(file).map_err(|e| format!("{} cannot be read: {e}", file.display()))
}

/// Replays each file on a new machine, prints what differs and, last,
/// `N passed, M failed`. Gives whether nothing failed.
///
/// # Errors
/// A file that is no recording, with the line's number.
pub fn replay_files(
    files: &[PathBuf],
    machine: impl Fn() -> Box<dyn Machine>,
) -> Result<bool, String> {
    let (mut passed, mut failed, mut left_out) = (0, 0, 0);
    for file in files {
        let name = file.display().to_string();
        let source = Source {
            folder: folder(file),
        };
        let recording = parse(&text(file)?, source, true).map_err(|e| format!("{name}: {e}"))?;
        let outcome = replay(&name, &recording, machine().as_mut());
        for line in outcome.notes.iter().chain(&outcome.differences) {
            println!("{line}");
        }
        passed += outcome.passed;
        failed += outcome.failed;
        left_out += outcome.left_out;
    }
    if left_out > 0 {
        println!("{left_out} calls left out: this machine does not have them");
    }
    println!("{passed} passed, {failed} failed");
    Ok(failed == 0)
}

/// Writes the recording of a file's calls with this machine's answers.
///
/// # Errors
/// A file that is no recording, with the line's number.
pub fn record_file(file: &Path, machine: &mut dyn Machine) -> Result<(), String> {
    let source = Source {
        folder: folder(file),
    };
    let recording =
        parse(&text(file)?, source, false).map_err(|e| format!("{}: {e}", file.display()))?;
    let recorded = record(&recording, machine);
    print!("{}", recorded.text);
    for note in &recorded.notes {
        eprintln!("{}: {note}", file.display());
    }
    let left_out = recorded.left_out;
    if left_out > 0 {
        eprintln!("{left_out} calls left out: this machine does not have them");
    }
    Ok(())
}
