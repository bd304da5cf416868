//! The work memory of `find_sync` and feed.

use crate::lent::Lent;
use crate::rng::Rng;

const IMAGE_BYTES: usize = 441_000;
const VOTE_CELLS: usize = 144_000;

pub struct Work {
    pub img: Lent<u8>,
    pub votes: Lent<u16>,
}

/// Mostly the length asked for, else one about it.
fn length(rng: &mut Rng, asked: usize) -> usize {
    match rng.below(16) {
        0 => asked - 1,
        1 => asked + 1,
        2 => rng.pick(&[0, 1, asked + 1_000]),
        _ => asked,
    }
}

impl Work {
    /// Memory that holds anything, now and then of a wrong length.
    pub fn new(rng: &mut Rng) -> Self {
        let (fill, cells) = (rng.byte(), u16::from(rng.byte()) << 7);
        let (bytes, counts) = (length(rng, IMAGE_BYTES), length(rng, VOTE_CELLS));
        Self {
            img: Lent::new(rng, &vec![fill; bytes]),
            votes: Lent::new(rng, &vec![cells; counts]),
        }
    }

    /// Refusal 5.
    pub fn short(&self) -> bool {
        self.img.len() < IMAGE_BYTES || self.votes.len() < VOTE_CELLS
    }

    pub fn keep(&mut self) {
        self.img.keep();
        self.votes.keep();
    }

    pub fn same(&self) -> bool {
        self.img.same() && self.votes.same()
    }

    /// Whether the extent is 0 and nothing beyond it changed.
    pub fn cleared(&self) -> bool {
        !self.short()
            && self.img.same_but(0..IMAGE_BYTES)
            && self.votes.same_but(0..VOTE_CELLS)
            && self.img.contents()[..IMAGE_BYTES].iter().all(|b| *b == 0)
            && self.votes.contents()[..VOTE_CELLS].iter().all(|c| *c == 0)
    }
}
