//! Sessions of Robot 8 B/W, whose store is short, over pulses.

use funnelivy::{sizes, Refusal, Session, Work};

pub const MODE: u8 = 8;

/// Flags that fill the shortest store: a pulse of some flags on each line, the
/// first from a flag on.
pub fn heard(first: usize, pulse: usize) -> Vec<u8> {
    let sizes = sizes(MODE).unwrap();
    let mut flags = vec![0; usize::try_from(sizes.window + sizes.picture).unwrap()];
    for line in 0..120 {
        // A line of 66.9 ms is 184.393125 flags.
        let from = first + line * 184_393_125 / 1_000_000;
        let to = (from + pulse).min(flags.len());
        flags[from.min(to)..to].fill(1);
    }
    flags
}

/// A session that hears these flags, which fill its store, in pieces of `block`.
pub fn ended(anchor: u64, flags: &[u8], block: usize) -> Session {
    let mut session = Session::open(MODE, anchor, flags.len(), &[0.0; 4]).unwrap();
    let mut work = Work::new();
    assert_eq!(session.card(), Err(Refusal(11)));
    for some in flags.chunks(block) {
        let samples = vec![0.0; 4 * some.len()];
        let taken = session.feed(some, &samples, &mut work).unwrap();
        if taken < some.len() as u64 || session.read().is_ok() {
            return session;
        }
        assert_eq!(session.card(), Err(Refusal(11)));
    }
    session
}
