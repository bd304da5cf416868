//! How many windows have the largest sum (document 02, A.3): of a ring of counts,
//! and beside a session's start.

mod robot8;

use funnelivy::{best_pulse_window, BestWindow, End, Refusal};
use robot8::{ended, heard};

fn best(counts: &[u32], width: u64) -> (u64, u64, u64) {
    let BestWindow {
        start,
        sum,
        windows,
    } = best_pulse_window(counts, width).unwrap();
    (start, sum, windows)
}

#[test]
fn known_answers() {
    assert_eq!(best(&[5, 1, 1, 5], 2), (3, 10, 1));
    assert_eq!(best(&[5; 4], 2), (0, 10, 4));
    assert_eq!(best(&[5, 1, 1, 5], 4), (0, 12, 4));
    assert_eq!(best(&[7], 1), (0, 7, 1));
    assert_eq!(best(&vec![5; 65_536], 1), (0, 5, 65_536));
    for (n, width) in [(0, 1), (4, 0), (4, 5), (65_537, 1)] {
        let answer = best_pulse_window(&vec![5; n], width);
        assert_eq!(answer, Err(Refusal(9)), "{n} {width}");
    }
}

/// Every sum, one start after another.
fn sums(counts: &[u32], width: usize) -> Vec<u64> {
    let n = counts.len();
    let at = |place: usize| u64::from(counts[place % n]);
    let sum = |start: usize| (start..start + width).map(at).sum();
    (0..n).map(sum).collect()
}

#[test]
fn every_short_list_of_small_counts() {
    for n in 1..=7_u32 {
        for number in 0..3_u32.pow(n) {
            let counts: Vec<u32> = (0..n).map(|place| number / 3_u32.pow(place) % 3).collect();
            for width in 1..=counts.len() {
                let sums = sums(&counts, width);
                let most = *sums.iter().max().unwrap();
                let first = sums.iter().position(|sum| *sum == most).unwrap();
                let windows = sums.iter().filter(|sum| **sum == most).count();
                let due = (first as u64, most, windows as u64);
                assert_eq!(best(&counts, width as u64), due, "{counts:?} {width}");
            }
        }
    }
}

/// The start less the anchor, the count beside it, and whether there is a report.
fn start(end: End, anchor: u64) -> (u64, u64, bool) {
    match end {
        End::Reported { start, windows, .. } => (start - anchor, windows, true),
        End::CutShort { start, windows, .. } => (start - anchor, windows, false),
        End::Unfound => panic!("no start"),
    }
}

/// Counted over the 700 columns of the evaluation that finds the start. At the two
/// before it, with pulses of 80 flags, 189 and 228 windows tie.
#[test]
fn a_start_has_the_count_of_the_evaluation_that_found_it() {
    for (first, pulse, due) in [
        (500, 19, (1_843, 1, true)),
        (500, 90, (1_846, 266, true)),
        (300, 80, (1_046, 1, true)),
        (12_000, 90, (47_846, 2, false)),
    ] {
        let flags = heard(first, pulse);
        for (anchor, block) in [(0, 64), (1_000_003, 1_021), (1 << 62, flags.len())] {
            let end = ended(anchor, &flags, block).read().unwrap().end;
            assert_eq!(start(end, anchor), due, "{first} {pulse} {block}");
        }
    }
}
