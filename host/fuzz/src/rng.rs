//! Numbers from a seed, and the values that an argument is taken from.

/// An xorshift generator.
pub struct Rng(u64);

impl Rng {
    #[must_use]
    pub fn new(seed: u64) -> Self {
        Self(seed.wrapping_mul(0x9e37_79b9_7f4a_7c15) | 1)
    }

    pub fn bits(&mut self) -> u64 {
        self.0 ^= self.0 << 13;
        self.0 ^= self.0 >> 7;
        self.0 ^= self.0 << 17;
        self.0.wrapping_mul(0x2545_f491_4f6c_dd1d)
    }

    /// A number below `n`, which is not 0.
    pub fn below(&mut self, n: usize) -> usize {
        usize::try_from((self.bits() >> 16) % n as u64).unwrap_or(0)
    }

    /// True once in `n`.
    pub fn once_in(&mut self, n: usize) -> bool {
        self.below(n) == 0
    }

    pub fn pick<T: Copy>(&mut self, from: &[T]) -> T {
        from[self.below(from.len())]
    }

    pub fn byte(&mut self) -> u8 {
        self.bits().to_le_bytes()[7]
    }

    /// A mode, sometimes one that there is not.
    pub fn mode(&mut self) -> u8 {
        match self.below(16) {
            0 => self.byte(),
            1 => self.pick(&[15, 16, 17, 255]),
            _ => self.byte() % 16,
        }
    }

    /// A number about `limit`, or anything.
    pub fn about(&mut self, limit: u64) -> u64 {
        match self.below(8) {
            0 => self.bits(),
            1 => self.pick(&[0, 1, u64::MAX]),
            2..=4 => limit.wrapping_add(self.pick(&[0, 1, 2])).wrapping_sub(1),
            _ => self.bits() % limit,
        }
    }

    /// A sample within its limits.
    #[allow(clippy::cast_precision_loss)]
    pub fn sample(&mut self) -> f32 {
        match self.below(16) {
            0 => self.pick(&[0.0, -0.0, 1.0, -1.0, f32::MIN_POSITIVE, 1e-45]),
            _ => (self.bits() >> 40) as f32 / 8_388_608.0 - 1.0,
        }
    }

    /// A float that is often outside the limits of a sample.
    pub fn wild(&mut self) -> f32 {
        let loud = [
            f32::NAN,
            f32::INFINITY,
            f32::NEG_INFINITY,
            1.000_000_1,
            -2.0,
        ];
        match self.below(4) {
            0 => f32::from_bits(
                self.bits().to_le_bytes()[..4]
                    .iter()
                    .fold(0, |n, b| n << 8 | u32::from(*b)),
            ),
            1 => self.sample(),
            _ => self.pick(&loud),
        }
    }

    /// A float from `low` to `high`, about its ends, or anything.
    #[allow(clippy::cast_precision_loss)]
    pub fn within(&mut self, low: f64, high: f64) -> f64 {
        match self.below(8) {
            0 => f64::from_bits(self.bits()),
            1 => self.pick(&[f64::NAN, f64::INFINITY, f64::NEG_INFINITY, 0.0, -0.0]),
            2 => self.pick(&[low, high, low.next_down(), high.next_up()]),
            _ => low + (high - low) * (self.bits() >> 11) as f64 / 9_007_199_254_740_992.0,
        }
    }
}
