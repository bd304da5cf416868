//! The recordings in host/recordings (known answers, a refusal of each cause,
//! what the Rust answered, cards, and equal windows), on the port.

use funnelivy::machine::Port;
use recording::{parse, record, replay, Form, Recording, Source, Version};
use std::path::Path;

/// The name, text and calls of each.
fn recordings() -> Vec<(String, String, Recording)> {
    let folder = Path::new(env!("CARGO_MANIFEST_DIR")).join("../recordings");
    let files = std::fs::read_dir(&folder).unwrap();
    let files = files.map(|entry| entry.unwrap().path());
    files
        .filter(|file| file.extension().is_some_and(|e| e == "txt"))
        .map(|file| {
            let name = file.file_name().unwrap().to_string_lossy().into_owned();
            let text = std::fs::read_to_string(&file).unwrap();
            let recording = parse(&text, Source { folder: &folder }, true).unwrap();
            (name, text, recording)
        })
        .collect()
}

#[test]
fn recordings_replay_without_a_difference() {
    let all = recordings();
    for (name, version) in [
        ("known.txt", Version::One),
        ("differences.txt", Version::One),
        ("cards.txt", Version::Two),
        ("windows.txt", Version::Two),
    ] {
        let said = all
            .iter()
            .find(|one| one.0 == name)
            .map(|one| one.2.version);
        assert_eq!(said, Some(version), "{name}");
    }
    for (name, _, recording) in all {
        let outcome = replay(&name, &recording, &mut Port::default());
        assert_eq!(outcome.differences, Vec::<String>::new());
        assert_eq!((outcome.failed, outcome.left_out), (0, 0), "{name}");
        assert_eq!(outcome.passed, recording.entries.len(), "{name}");
    }
}

/// A line of `read` without the count of windows behind its start.
fn without_windows(line: &str) -> String {
    let mut words: Vec<&str> = line.split(' ').collect();
    assert_eq!(words[0], "read");
    assert_ne!(words.remove(6), "0");
    words.join(" ")
}

#[test]
fn recordings_are_recorded_again_in_their_version() {
    let mut older = Vec::new();
    for (name, text, recording) in recordings() {
        let again = record(&recording, &mut Port::default()).text;
        let mut written = text.lines().filter(|line| !line.starts_with('#'));
        let mut lines = again.lines();
        assert_eq!(lines.next(), written.next(), "{name}");
        assert_eq!(again.lines().count(), 1 + recording.entries.len(), "{name}");
        for ((line, written), entry) in lines.zip(written).zip(&recording.entries) {
            let form = entry.answer.as_ref().map(|recorded| recorded.form);
            if form == Some(recording.version.form()) {
                assert_eq!(line, written, "{name}:{}", entry.line);
            } else {
                // Written before there was a count.
                assert_eq!(form, Some(Form::First), "{name}:{}", entry.line);
                assert_eq!(without_windows(line), written, "{name}:{}", entry.line);
                older.push(name.clone());
            }
        }
    }
    older.dedup();
    assert_eq!(older, ["cards.txt"]);
}

#[test]
fn a_difference_is_found() {
    let text = format!("{}\ncolumns 0 700 = 27\n", recording::HEADER);
    let source = Source {
        folder: Path::new("."),
    };
    let recording = parse(&text, source, true).unwrap();
    let outcome = replay("one", &recording, &mut Port::default());
    assert_eq!(outcome.differences, ["one:2: recorded 27, got 28"]);
}
