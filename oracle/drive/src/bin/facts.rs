//! `facts FILE` writes the constants that the port holds; `facts --check FILE`
//! compares the file with what this machine computes.

use std::{env, fs, process::ExitCode};

fn main() -> ExitCode {
    let arguments: Vec<String> = env::args().skip(1).collect();
    let arguments: Vec<&str> = arguments.iter().map(String::as_str).collect();
    let done = match arguments[..] {
        ["--check", file] => check(file),
        [file] if !file.starts_with("--") => write(file),
        _ => Err("usage: facts FILE | facts --check FILE".to_string()),
    };
    match done {
        Ok(message) => {
            println!("{message}");
            ExitCode::SUCCESS
        }
        Err(message) => {
            eprintln!("{message}");
            ExitCode::FAILURE
        }
    }
}

fn write(file: &str) -> Result<String, String> {
    let text = drive::facts::text();
    fs::write(file, &text).map_err(|error| format!("{file}: {error}"))?;
    Ok(format!("{file}: {} lines", text.lines().count()))
}

fn check(file: &str) -> Result<String, String> {
    let held = fs::read_to_string(file).map_err(|error| format!("{file}: {error}"))?;
    let here = drive::facts::text();
    let (held, here): (Vec<_>, Vec<_>) = (held.lines().collect(), here.lines().collect());
    if held.len() != here.len() {
        return Err(format!("{file}: {} lines, not {}", held.len(), here.len()));
    }
    let unlike: Vec<_> = held.iter().zip(&here).filter(|(a, b)| a != b).collect();
    for (a, b) in &unlike {
        eprintln!("{file} has: {a}\nthis machine: {b}");
    }
    if unlike.is_empty() {
        return Ok(format!("{file}: {} lines, 0 unlike", here.len()));
    }
    Err(format!(
        "{file}: {} lines, {} unlike",
        here.len(),
        unlike.len()
    ))
}
