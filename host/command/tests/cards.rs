//! `ledger --cards FILE` and `cards FILE`, as they are run.

mod running;

use running::{funnelivy, status, text, Folder};
use std::path::Path;
use std::process::Output;

fn ledger(sound: &Path, cards: &Path) -> Output {
    let words = ["ledger", "--mode", "robot36", "--anchor", "7", "--cards"];
    funnelivy(&words, &[cards, sound])
}

/// The part of a line behind a word.
fn behind<'a>(line: &'a str, word: &str) -> &'a str {
    line.split_once(word).unwrap().1
}

/// A line of the ledger without the count of windows, which no card has.
fn without_windows(line: &str) -> String {
    let (begin, rest) = line.split_once(", start quality ").unwrap();
    let (start, windows) = begin.split_once(", ").unwrap();
    assert!(windows.ends_with(" the largest sum"), "{line}");
    format!("{start}, start quality {rest}")
}

#[test]
fn the_cards_of_a_ledger() {
    let folder = Folder::new("ledger-cards");
    let (sound, cards) = (folder.path("sound.wav"), folder.path("cards"));
    let made = funnelivy(&["synthesise", "--mode", "robot36"], &[&sound]);
    assert_eq!(status(&made), Some(0));

    let once = ledger(&sound, &cards);
    assert_eq!(status(&once), Some(0));
    let first = std::fs::read(&cards).unwrap();
    assert_eq!(first.len(), 2 * 56);
    // The file is appended to, and the ledger says the same without it.
    let twice = ledger(&sound, &cards);
    assert_eq!(twice.stdout, once.stdout);
    let second = std::fs::read(&cards).unwrap();
    assert_eq!(second, [first.clone(), first].concat());
    let words = ["ledger", "--mode", "robot36", "--anchor", "7"];
    assert_eq!(funnelivy(&words, &[&sound]).stdout, once.stdout);

    let printed = funnelivy(&["cards"], &[&cards]);
    assert_eq!(
        (status(&printed), text(&printed.stderr)),
        (Some(0), String::new())
    );
    let (printed, ledger) = (text(&printed.stdout), text(&once.stdout));
    let pictures: Vec<&str> = ledger.lines().skip(1).collect();
    let lines: Vec<&str> = printed.lines().collect();
    assert_eq!((pictures.len(), lines.len()), (2, 4));
    for (number, line) in lines.iter().enumerate() {
        let begin = format!("card {}: robot36, reported, taken ", number + 1);
        assert!(line.starts_with(&begin), "{line}");
        let picture = without_windows(pictures[number % 2]);
        assert_eq!(behind(line, ", start "), behind(&picture, ": start "));
    }
}

/// One card of each end, by hand.
fn three_cards() -> Vec<u8> {
    let mut reported = vec![b'S', b'S', b'R', 1, 0, 4, 0, 9];
    reported.resize(35, 0);
    reported.extend([0, 0, 0, 0, 0x80, 0x88, 0xc5, 0x40, 120]);
    reported.resize(56, 0);
    let mut unfound = vec![b'S', b'S', b'R', 1, 0, 4, 1, 9];
    unfound.resize(56, 0);
    unfound[43] = 255;
    let mut cut_short = unfound.clone();
    cut_short[6] = 2;
    cut_short[23] = 5;
    [reported, unfound, cut_short].concat()
}

const LINES: [&str; 3] = [
    "card 1: robot36, reported, taken 9, evaluations 0, start 0, start quality 0.000, \
     rate 11025.000 Hz, slant 90.0°, skip 0, quality 0.000",
    "card 2: robot36, unfound, taken 9, evaluations 0",
    "card 3: robot36, cut short, taken 9, evaluations 0, start 5, start quality 0.000",
];

#[test]
fn cards_are_printed_up_to_one_that_is_refused() {
    let folder = Folder::new("cards");
    let file = folder.path("cards");
    let run = |bytes: &[u8]| {
        std::fs::write(&file, bytes).unwrap();
        let output = funnelivy(&["cards"], &[&file]);
        let lines: Vec<String> = text(&output.stdout).lines().map(str::to_owned).collect();
        (status(&output), lines, text(&output.stderr))
    };
    let name = file.display();
    let all = three_cards();
    assert_eq!(run(&[]), (Some(0), Vec::new(), String::new()));
    let (ended, lines, said) = run(&all);
    assert_eq!((ended, said.as_str()), (Some(0), ""));
    assert_eq!(lines, LINES);

    let (ended, lines, said) = run(&all[..150]);
    assert_eq!((ended, lines.len()), (Some(2), 2));
    let cause = "card 3: refused with 12: a card is not 56 bytes long";
    assert_eq!(said, format!("funnelivy: {name}: {cause}\n"));

    let mut other = all.clone();
    other[56 + 3] = 2;
    let (ended, lines, said) = run(&other);
    assert_eq!((ended, lines.len()), (Some(2), 1));
    assert!(said.starts_with(&format!("funnelivy: {name}: card 2: refused with 13: ")));

    other = all;
    other[112 + 43] = 120;
    let (ended, lines, said) = run(&other);
    assert_eq!((ended, lines.len()), (Some(2), 2));
    assert!(said.starts_with(&format!("funnelivy: {name}: card 3: refused with 14: ")));
}

#[test]
fn a_file_that_cannot_be_read_or_written() {
    let folder = Folder::new("no-cards");
    let missing = folder.path("missing");
    let output = funnelivy(&["cards"], &[&missing]);
    assert_eq!(status(&output), Some(2));
    assert!(text(&output.stderr).contains("missing cannot be read: "));

    let sound = folder.path("sound.wav");
    std::fs::write(&sound, "no sound").unwrap();
    let output = ledger(&sound, &missing.join("cards"));
    assert_eq!(status(&output), Some(2));
    assert!(text(&output.stderr).contains("cards cannot be written: "));
}

#[test]
fn nothing_is_appended_to_another_file() {
    let folder = Folder::new("other-cards");
    let (sound, other) = (folder.path("sound.wav"), folder.path("other"));
    std::fs::write(&sound, "no sound").unwrap();
    for held in [vec![0; 56], vec![0; 55], three_cards()[..167].to_vec()] {
        std::fs::write(&other, &held).unwrap();
        let output = ledger(&sound, &other);
        assert_eq!(status(&output), Some(2));
        assert!(text(&output.stderr).contains("other: card "), "{output:?}");
        assert_eq!(std::fs::read(&other).unwrap(), held);
    }
}
