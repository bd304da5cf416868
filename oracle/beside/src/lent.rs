//! Lent memory that holds a mark in each place, so that a write shows.

/// Memory filled with one value that no call writes.
pub struct Lent<T> {
    /// What is lent.
    pub memory: Vec<T>,
    mark: T,
}

impl<T: Copy + PartialEq + Default> Lent<T> {
    /// This many marked places.
    #[must_use]
    pub fn new(length: usize, mark: T) -> Self {
        let memory = vec![mark; length];
        Self { memory, mark }
    }

    /// Whether nothing was written.
    #[must_use]
    pub fn is_untouched(&self) -> bool {
        self.memory.iter().all(|place| *place == self.mark)
    }

    /// Whether the first places are `first` and nothing after them was written.
    #[must_use]
    pub fn begins_with(&self, first: &[T]) -> bool {
        let (begin, rest) = self.memory.split_at(first.len());
        begin == first && rest.iter().all(|place| *place == self.mark)
    }

    /// Whether the extent is zero and nothing after it was written.
    #[must_use]
    pub fn is_cleared(&self, extent: usize) -> bool {
        let (begin, rest) = self.memory.split_at(extent);
        let zero = T::default();
        begin.iter().all(|place| *place == zero) && rest.iter().all(|place| *place == self.mark)
    }
}
