//! `takeover`, as it is run.

mod running;

use running::{funnelivy, status, text, Folder};

/// The start that a line of the ledger says, and what stands behind it.
fn start(line: &str) -> (u64, &str) {
    let (_, begin) = line.split_once(": start ").unwrap();
    let (start, rest) = begin.split_once(", ").unwrap();
    (start.parse().unwrap(), rest)
}

#[test]
fn the_standby_says_what_the_primary_says() {
    let folder = Folder::new("takeover");
    let sound = folder.path("sound.wav");
    let made = funnelivy(&["synthesise", "--mode", "robot36"], &[&sound]);
    assert_eq!(status(&made), Some(0));
    let words = ["takeover", "--mode", "robot36", "--at", "500000"];
    let run = funnelivy(&words, &[&sound]);
    assert_eq!((status(&run), text(&run.stderr)), (Some(0), String::new()));
    let said = text(&run.stdout);
    let lines: Vec<&str> = said.lines().collect();
    let [primary, first, second, standby, taken_over, agree] = lines[..] else {
        panic!("{said}");
    };
    assert!(primary.starts_with("primary, anchor 1000000, "));
    assert!(standby.starts_with("standby from the session open at sample 500000 "));
    let (_, begun) = standby.split_once("it began at sample ").unwrap();
    let begun: u64 = begun.split_once(')').unwrap().0.parse().unwrap();
    let (one, other) = (start(second), start(taken_over));
    assert_eq!(one.0, other.0 + 1_000_000 + begun);
    assert_eq!(one.1, other.1);
    for line in [first, second, taken_over] {
        let (windows, _) = start(line).1.split_once(", start quality ").unwrap();
        assert!(windows.ends_with(" the largest sum"), "{line}");
    }
    let due = "the ledgers agree: every start less the anchor, count of windows, ";
    assert!(agree.starts_with(due), "{agree}");
}
