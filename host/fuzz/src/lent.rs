//! Memory that a call is lent.

use crate::rng::Rng;
use std::ops::Range;

/// Cells before and behind.
const ZONE: usize = 64;

/// Numbers without padding, so that memory can be compared by its bytes.
pub trait Number: Copy + Default {
    /// What the zones hold: nothing that a call writes.
    const GUARD: Self;
}
impl Number for u8 {
    const GUARD: Self = 0xa5;
}
impl Number for u16 {
    const GUARD: Self = 0xa5a5;
}
impl Number for u32 {
    const GUARD: Self = 0xa5a5_a5a5;
}
impl Number for f32 {
    const GUARD: Self = 1234.5;
}

/// Either an allocation of exactly the length, in which valgrind sees any
/// access beyond it, or a part of a longer one whose zones before and behind
/// are compared after each call.
#[derive(Clone)]
pub struct Lent<T> {
    cells: Box<[T]>,
    zone: usize,
    null: bool,
    before: Vec<u8>,
}

impl<T: Number> Lent<T> {
    /// Lends these contents. An empty list is often a null pointer.
    pub fn new(rng: &mut Rng, contents: &[T]) -> Self {
        let zone = if rng.once_in(2) { ZONE } else { 0 };
        let mut cells = vec![T::GUARD; zone];
        cells.extend_from_slice(contents);
        cells.resize(contents.len() + 2 * zone, T::GUARD);
        Self {
            cells: cells.into_boxed_slice(),
            zone,
            null: contents.is_empty() && rng.once_in(2),
            before: Vec::new(),
        }
    }

    /// An allocation of exactly `n` zeros.
    pub fn zeros(n: usize) -> Self {
        Self {
            cells: vec![T::default(); n].into_boxed_slice(),
            zone: 0,
            null: false,
            before: Vec::new(),
        }
    }

    pub fn len(&self) -> usize {
        self.cells.len() - 2 * self.zone
    }

    pub fn ptr(&self) -> *const T {
        if self.null {
            return std::ptr::null();
        }
        self.cells[self.zone..].as_ptr()
    }

    pub fn mut_ptr(&mut self) -> *mut T {
        if self.null {
            return std::ptr::null_mut();
        }
        self.cells[self.zone..].as_mut_ptr()
    }

    pub fn contents(&self) -> &[T] {
        &self.cells[self.zone..self.cells.len() - self.zone]
    }

    /// Keeps the bytes, zones included, for the comparison after the call.
    pub fn keep(&mut self) {
        let bytes = bytes(&self.cells);
        self.before.clear();
        self.before.extend_from_slice(bytes);
    }

    /// Whether nothing changed since `keep`.
    pub fn same(&self) -> bool {
        self.before == bytes(&self.cells)
    }

    /// Whether nothing changed since `keep` but, maybe, these cells.
    pub fn same_but(&self, cells: Range<usize>) -> bool {
        let size = size_of::<T>();
        let (from, to) = (
            (self.zone + cells.start) * size,
            (self.zone + cells.end) * size,
        );
        let now = bytes(&self.cells);
        self.before[..from] == now[..from] && self.before[to..] == now[to..]
    }

    /// Whether the cells from `at` on hold these numbers, bit for bit.
    pub fn holds(&self, at: usize, numbers: &[T]) -> bool {
        bytes(&self.contents()[at..at + numbers.len()]) == bytes(numbers)
    }
}

fn bytes<T: Number>(cells: &[T]) -> &[u8] {
    // SAFETY: the numbers have no padding, and the length is the slice's own.
    unsafe { std::slice::from_raw_parts(cells.as_ptr().cast(), size_of_val(cells)) }
}
