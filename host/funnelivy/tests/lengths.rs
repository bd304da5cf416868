//! Lengths that no memory has are refused as the scope document says, and
//! nothing of such a length is allocated.

use funnelivy::machine::Port;
use funnelivy::{sample_store_length, sizes, Refusal, Session, Work, MOST_FLAGS};
use recording::{parse, replay, Source};
use std::path::Path;

const HUGE: [usize; 6] = [
    MOST_FLAGS + 1,
    1 << 50,
    1 << 62,
    (1 << 62) + 1,
    usize::MAX - 1,
    usize::MAX,
];
const FAR: u64 = 1 << 62;
const SCOTTIE_1: u8 = 9;
const ROBOT_24: u8 = 3;
const ROBOT_36: u8 = 4;

/// The number that open gives.
fn refused(mode: u8, anchor: u64, capacity: usize, first: &[f32]) -> u32 {
    Session::open(mode, anchor, capacity, first).map_or_else(|r| r.0, |_| 0)
}

#[test]
fn open_refuses_in_order_before_it_allocates() {
    let loud = [2.0; 3];
    for capacity in HUGE {
        for mode in 0..16 {
            assert_eq!(refused(mode, FAR, capacity, &[0.0; 4]), 5);
            assert_eq!(refused(mode, FAR + 1, capacity, &loud), 4);
            assert_eq!(refused(mode, 0, capacity, &loud), 5);
        }
        assert_eq!(refused(20, FAR + 1, capacity, &loud), 1);
        assert_eq!(refused(20, 0, capacity, &[0.0; 4]), 1);
    }
}

#[test]
fn the_longest_store_is_taken() {
    for mode in [SCOTTIE_1, ROBOT_24, ROBOT_36] {
        assert_eq!(refused(mode, FAR, MOST_FLAGS, &[0.0; 4]), 0);
        assert_eq!(refused(mode, FAR, MOST_FLAGS, &[0.0; 3]), 6);
        assert_eq!(refused(mode, FAR, MOST_FLAGS, &[2.0; 4]), 8);
    }
}

#[test]
fn the_length_of_a_sample_store_does_not_wrap() {
    assert_eq!(sample_store_length(ROBOT_36, 10), 44);
    assert_eq!(sample_store_length(ROBOT_36, 1 << 62), usize::MAX);
    assert_eq!(sample_store_length(ROBOT_36, usize::MAX), usize::MAX);
    assert_eq!(sample_store_length(SCOTTIE_1, usize::MAX), 0);
}

#[test]
fn a_feed_over_such_stores_is_refused_or_answered_as_over_its_own() {
    let mut work = Work::new();
    for mode in [SCOTTIE_1, ROBOT_24, ROBOT_36] {
        let least = sizes(mode).map(|s| s.window + s.picture).unwrap();
        let least = usize::try_from(least).unwrap();
        let mut session = Session::open(mode, 0, least, &[0.0; 4]).unwrap();
        let (own_flags, own_samples) = session.store_lengths();
        for length in HUGE {
            let mut feed = |lengths| session.feed_lent(lengths, &[1], &[0.5; 4], &mut work);
            assert_eq!(feed((length, own_samples)), Err(Refusal(5)));
            assert_eq!(feed((length, length)), Err(Refusal(5)));
            assert_eq!(feed((own_flags, length)), Ok(1));
        }
        assert_eq!(session.store_lengths(), (own_flags, own_samples));
        assert_eq!(session.taken(), HUGE.len() as u64);
    }
}

#[test]
fn a_sample_store_of_another_length() {
    let mut work = Work::new();
    let mut feed = |session: &mut Session, change: isize| {
        let (flags, samples) = session.store_lengths();
        let lengths = (flags, samples.saturating_add_signed(change));
        session.feed_lent(lengths, &[1], &[0.5; 4], &mut work)
    };
    let mut robot = Session::open(ROBOT_36, 0, 105_015, &[0.0; 4]).unwrap();
    assert_eq!(feed(&mut robot, -1), Err(Refusal(5)));
    assert_eq!(feed(&mut robot, 1), Ok(1));
    let (flags, samples) = (vec![0; 311_712], vec![0.0; 7]);
    let mut scottie = Session::open_with(SCOTTIE_1, 0, flags, samples, &[0.0; 4]).unwrap();
    assert_eq!(feed(&mut scottie, -7), Ok(1));
    assert_eq!(feed(&mut scottie, 90), Ok(1));
    assert_eq!(scottie.store_lengths(), (311_712, 7));
}

/// Lines of a recording, each of which has such a length somewhere.
fn lines(n: usize) -> String {
    let mut text = format!("{}\n", recording::HEADER);
    for line in [
        "find 0 40c5888000000000 N N - = 40c5888000000000 none -221 00000000",
        "find 0 40c5888000000000 N 5 - = refused 5",
        "fill 8 N - = refused 5",
        "fill 4611686018427387905 N - = refused 4",
        "open 20 4611686018427387905 N * - = refused 1",
        "open 9 4611686018427387905 N N - = refused 4",
        "open 9 0 N * 4*00000000 = refused 5",
        "open 9 0 N N - = refused 5",
        "open 4 0 N * 4*00000000 = refused 5",
        "open 4 0 N N 4*00000000 = refused 5",
        "open 9 0 * N - = refused 6",
        "open 4 0 * N 4*00000000 = opened",
        "feed * N N N 1 4*00000000 = took 1",
        "feed N * * * 1 4*00000000 = refused 5",
        "feed N N N N 1 4*00000000 = refused 5",
        "feed * N N 5 1 4*00000000 = refused 5",
        "feed * 420063 * * 1 4*00000000 = refused 5",
        "feed * * * * 1 4*00000000 = took 1",
        "open 9 0 * N 4*00000000 = opened",
        "feed * N * * 1 4*00000000 = took 1",
        "feed * * * * 1 4*00000000 = took 1",
        "feed N * N N 2 3*40000000 = refused 5",
    ] {
        text += &line.replace('N', &n.to_string());
        text.push('\n');
    }
    text
}

#[test]
fn recordings_with_such_lengths_are_replayed() {
    let source = Source {
        folder: Path::new("."),
    };
    for n in HUGE {
        let recording = parse(&lines(n), source, true).unwrap();
        let outcome = replay("huge", &recording, &mut Port::default());
        assert_eq!(outcome.differences, Vec::<String>::new());
        assert_eq!(outcome.passed, recording.entries.len());
    }
}
