//! Windows of a ring of counts that share the largest sum: how many there are, by
//! another way than the direct count that gives the answers
//! (`slowrx::sync::access`), and what inputs reach of it.

use crate::pulse::LONGEST;
use crate::scene::Sound;
use crate::search::{fold, COLUMNS};
use crate::tally::Tally;
use slowrx::modespec::access::spec;
use slowrx::sync::access::sync_pulse_columns;

/// The sum of the window at each start, from the totals up to each place.
#[must_use]
pub fn sums(counts: &[u32], width: usize) -> Vec<u64> {
    let mut total = 0;
    let mut totals = vec![total];
    for &count in counts.iter().chain(counts) {
        total += u64::from(count);
        totals.push(total);
    }
    let starts = 0..counts.len();
    starts.map(|s| totals[s + width] - totals[s]).collect()
}

/// The starts that have the largest sum.
fn best_starts(counts: &[u32], width: usize) -> Vec<usize> {
    let sums = sums(counts, width);
    let largest = sums.iter().max();
    let starts = 0..counts.len();
    starts.filter(|&s| Some(&sums[s]) == largest).collect()
}

/// How many starts have the largest sum.
#[must_use]
pub fn windows(counts: &[u32], width: usize) -> usize {
    best_starts(counts, width).len()
}

/// Whether the first and the last start have the largest sum, and not all.
#[must_use]
pub fn ties_over_the_end(counts: &[u32], width: usize) -> bool {
    let (n, best) = (counts.len(), best_starts(counts, width));
    best.first() == Some(&0) && best.last() == Some(&(n - 1)) && best.len() < n
}

/// What a list of counts and a width reach, by class.
fn of_list(counts: &[u32], width: usize) -> [(&'static str, bool); 18] {
    let (n, sums) = (counts.len(), sums(counts, width));
    let best = best_starts(counts, width);
    let (start, windows) = (best[0], best.len());
    let all = windows == n;
    let equal = n > 1 && counts.iter().all(|&c| c == counts[0]);
    let wraps = start + width > n;
    // how often the largest sum before the best one is there
    let before = &sums[..start];
    let lower = before.iter().max();
    let equals = before.iter().filter(|&sum| Some(sum) == lower).count();
    let over = ties_over_the_end(counts, width);
    let few = (2..=9).contains(&windows);
    [
        ("one count", n == 1),
        ("65,536 counts", n == LONGEST),
        ("65,536 equal counts", n == LONGEST && equal),
        ("width n", width == n && n > 1),
        ("width 1", width == 1),
        ("all equal", equal),
        ("tie, the first wins", windows > 1 && !equal),
        ("best window wraps", wraps),
        ("best window at 0", start == 0 && !equal),
        ("best window at n - 1", start + 1 == n && n > 1),
        ("sum above 2^32", sums[start] >> 32 > 0),
        ("1 window has the largest sum", windows == 1 && n > 1),
        ("2 to 9 windows have it, not all", few && !all),
        ("10 windows or more have it, not all", windows >= 10 && !all),
        ("all n windows have it", all && n > 1),
        ("a larger sum behind several equal ones", equals > 1),
        ("the first and the last window have it, not all", over),
        (
            "several windows have it, and all of them wrap",
            windows > 1 && wraps && width < n,
        ),
    ]
}

/// Announces the classes of lists, with `prefix` before each name.
pub fn announce_list(tally: &mut Tally, prefix: &str) {
    for (class, _) in of_list(&[0], 1) {
        tally.announce(format!("{prefix}{class}"));
    }
}

/// Counts what a list reaches.
pub fn note_list(tally: &mut Tally, prefix: &str, counts: &[u32], width: usize) {
    for (class, reached) in of_list(counts, width) {
        tally.note(&format!("{prefix}{class}"), reached);
    }
}

/// What the fold of an evaluation that found a start reaches, by class.
fn of_start(mode: usize, counts: &[u32]) -> [(&'static str, bool); 5] {
    let width = sync_pulse_columns(spec(mode), COLUMNS);
    let number = windows(counts, width);
    let other = |width: usize| windows(counts, width) != number;
    [
        ("start with 1 window of the largest sum", number == 1),
        ("start with 2 to 9 windows of it", (2..=9).contains(&number)),
        ("start with 10 windows of it or more", number >= 10),
        ("start with another count at width + 1", other(width + 1)),
        ("start with another count at width - 1", other(width - 1)),
    ]
}

/// The class of a search: its streak has three counts, so that the count of an
/// evaluation before the last one would be noticed.
const STREAK: &str = "start whose three evaluations have three counts";

/// Announces the classes of starts, with `prefix` before each name.
pub fn announce_start(tally: &mut Tally, prefix: &str) {
    for (class, _) in of_start(0, &[0; COLUMNS]) {
        tally.announce(format!("{prefix}{class}"));
    }
    tally.announce(format!("{prefix}{STREAK}"));
}

/// Counts what the fold of an evaluation that found a start reaches.
pub fn note_start(tally: &mut Tally, prefix: &str, mode: usize, counts: &[u32]) {
    for (class, reached) in of_start(mode, counts) {
        tally.note(&format!("{prefix}{class}"), reached);
    }
}

/// Counts whether the streak of a search has three counts that found a start at
/// evaluation `j`.
pub fn note_streak(tally: &mut Tally, prefix: &str, mode: usize, sound: &Sound, j: usize) {
    let three = has_three_counts(mode, sound, j);
    tally.note(&format!("{prefix}{STREAK}"), three);
}

/// Whether evaluation `j` and the two before it have three counts.
#[must_use]
pub fn has_three_counts(mode: usize, sound: &Sound, j: usize) -> bool {
    let width = sync_pulse_columns(spec(mode), COLUMNS);
    let [a, b, c] = [j - 2, j - 1, j].map(|j| windows(&fold(mode, sound, j), width));
    a != b && a != c && b != c
}
