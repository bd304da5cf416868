//! The known answers of document 01, asked of the Rust itself, and the forms
//! in which lists are written.

use drive::pulse::list;
use drive::record::runs;
use drive::ring;
use drive::rng::Rng;
use drive::scene::pieces;
use slowrx::modespec::access::spec;
use slowrx::sync::access as sync;
use slowrx::sync_start::access as sync_start;

const PD_120: usize = 0;
const ROBOT_36: usize = 4;
const SCOTTIE_1: usize = 9;
const MARTIN_1: usize = 12;

#[test]
fn window_line_width_and_columns() {
    let answers = [
        (PD_120, 11_213, 101, 28),
        (ROBOT_36, 5_790, 66, 42),
        (SCOTTIE_1, 9_447, 190, 15),
        (MARTIN_1, 9_846, 367, 8),
    ];
    for (mode, window, width, columns) in answers {
        assert_eq!(sync_start::window_probes(spec(mode)), window);
        assert_eq!(sync::line_width(spec(mode)), width);
        assert_eq!(sync::sync_pulse_columns(spec(mode), 700), columns);
    }
}

#[test]
fn no_flags() {
    let answers = [
        (PD_120, -221),
        (ROBOT_36, -99),
        (SCOTTIE_1, -828),
        (MARTIN_1, -54),
    ];
    for (mode, skip) in answers {
        let found = sync::find_sync(&[], 11_025.0, spec(mode), &mut sync::Scratch::default());
        assert_eq!((found.skip, found.slant), (skip, None));
    }
}

#[test]
fn ring() {
    assert_eq!(sync::best_pulse_window(&[5, 1, 1, 5], 2), (3, 10));
    assert_eq!(sync::best_pulse_window(&[4, 4, 4, 4], 2).0, 0);
}

#[test]
fn windows_that_tie() {
    let answers: [(&[u32], usize, usize); 8] = [
        (&[5, 1, 1, 5], 2, 1),
        (&[4, 4, 4, 4], 2, 4),
        (&[9], 1, 1),
        (&[3, 1, 4, 1, 5], 5, 5),
        // a larger sum behind three that tie, with one window and with two
        (&[2, 2, 2, 2, 0, 3, 3, 0], 2, 1),
        (&[2, 2, 2, 2, 0, 3, 3, 3], 2, 2),
        // the last window and the first
        (&[6, 6, 0, 0, 6], 2, 2),
        // the last two
        (&[6, 0, 0, 0, 6, 6], 2, 2),
    ];
    for (counts, width, windows) in answers {
        assert_eq!(sync::windows_with_largest(counts, width), windows);
        assert_eq!(ring::windows(counts, width), windows);
    }
}

#[test]
fn two_ways_of_counting_agree() {
    let mut rng = Rng::new(21);
    let mut several = 0;
    for _ in 0..3_000 {
        let n = 1 + rng.index(60);
        let (counts, width) = (list(&mut rng, n), 1 + rng.index(n));
        let windows = sync::windows_with_largest(&counts, width);
        assert_eq!(ring::windows(&counts, width), windows);
        several += usize::from(windows > 1 && windows < n);
    }
    assert!(several > 500);
}

#[test]
fn edges() {
    for (column, edge) in [(349, 350), (350, 1), (694, 345), (695, 0)] {
        let mut counts = [0; 700];
        counts[column] = 1;
        assert_eq!(sync::falling_edge(&counts), edge);
    }
}

#[test]
fn picture() {
    assert_eq!(sync::image_probes(spec(PD_120), 11_025.0), 347_572);
    assert_eq!(sync::image_probes(spec(ROBOT_36), 11_025.0), 99_225);
}

#[test]
fn bins_at_shift_0() {
    assert_eq!(sync::Tracker::new(0.0).bins(), (27, 34, 53));
}

#[test]
fn forms_of_lists() {
    assert_eq!(runs(&[]), []);
    assert_eq!(runs(&[true, true, false]), [0, 2, 1]);
    assert_eq!(runs(&[false, true]), [1, 1]);
    let samples = [0.0, 0.5, 0.0, 0.0, 0.25, 0.0, 0.0, 0.0, -0.0];
    let parts: Vec<(usize, usize)> = pieces(&samples)
        .iter()
        .map(|(f, p)| (*f, p.len()))
        .collect();
    assert_eq!(parts, [(1, 4), (8, 1)]);
}
