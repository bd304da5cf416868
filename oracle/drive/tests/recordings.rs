//! The committed recordings are what the Rust answers.

use drive::machine::Rust;
use recording::{parse, record, replay, Answer, End, Recording, Source, Version};
use std::path::{Path, PathBuf};

fn folder() -> PathBuf {
    Path::new(env!("CARGO_MANIFEST_DIR")).join("../../host/recordings")
}

fn text(name: &str) -> String {
    std::fs::read_to_string(folder().join(name)).expect("the recording is there")
}

#[test]
fn the_samples_are_the_committed_ones() {
    assert!(drive::sample::text(1, Version::Two) == text("rust.txt"));
    assert!(drive::sample::text(1, Version::One) == text("version1.txt"));
}

fn parsed(name: &str) -> Recording {
    let folder = folder();
    let source = Source { folder: &folder };
    parse(&text(name), source, true).expect("a recording")
}

/// Every call of a recording is answered as it has it.
fn is_answered(name: &str) {
    let recording = parsed(name);
    let outcome = replay(name, &recording, &mut Rust::default());
    assert_eq!(outcome.differences, Vec::<String>::new());
    assert_eq!(outcome.left_out, 0);
    assert_eq!(outcome.passed, recording.entries.len());
}

#[test]
fn known_answers_are_the_rusts() {
    is_answered("known.txt");
}

#[test]
fn both_versions_are_answered() {
    is_answered("rust.txt");
    is_answered("version1.txt");
}

/// The count of windows that an answer has.
fn count(answer: &mut Answer) -> Option<&mut u64> {
    match answer {
        Answer::Window { windows, .. }
        | Answer::Read {
            end: End::Reported { windows, .. } | End::CutShort { windows, .. },
            ..
        } => Some(windows),
        _ => None,
    }
}

/// How many answers have a count, and how many answers differ where each count
/// is another one.
fn counted_and_failed(name: &str) -> (usize, usize) {
    let mut recording = parsed(name);
    let answers = recording
        .entries
        .iter_mut()
        .filter_map(|e| e.answer.as_mut());
    let mut counted = 0;
    for count in answers.filter_map(|a| count(&mut a.answer)) {
        *count += 1;
        counted += 1;
    }
    let outcome = replay(name, &recording, &mut Rust::default());
    (counted, outcome.failed)
}

#[test]
fn another_count_is_a_difference_in_version_2_alone() {
    let (counted, failed) = counted_and_failed("rust.txt");
    assert!(counted > 80);
    assert_eq!(failed, counted);
    let (counted, failed) = counted_and_failed("version1.txt");
    assert!(counted > 10);
    assert_eq!(failed, 0);
}

#[test]
fn cards_are_the_oracles() {
    is_answered("cards.txt");
}

/// The lines of a recording but comments and the reads of a start: cards.txt was
/// written before those had a count.
fn lines(text: &str) -> Vec<&str> {
    let left_out = ["#", "read = reported", "read = cutshort"];
    let is_in = |line: &&str| !left_out.iter().any(|begin| line.starts_with(begin));
    text.lines().filter(is_in).collect()
}

#[test]
fn cards_are_recorded_again() {
    let recorded = record(&parsed("cards.txt"), &mut Rust::default()).text;
    assert_eq!(lines(&recorded), lines(&text("cards.txt")));
}

#[test]
fn answers_made_by_hand_are_the_oracles() {
    is_answered("windows.txt");
}
