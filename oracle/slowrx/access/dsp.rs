/// What test programs may use of this file.
pub mod access {
    pub fn build_hann(len: usize) -> Vec<f32> {
        super::build_hann(len)
    }

    pub fn goertzel_power(samples: &[f32], target_hz: f64) -> f64 {
        super::goertzel_power(samples, target_hz)
    }

    /// The coefficient of `goertzel_power` for `len` samples. Its two lines
    /// stand inside that function and are copied here; the comparison of
    /// whole Goertzel values shows that the copy is right.
    pub fn goertzel_coefficient(len: usize, target_hz: f64) -> f64 {
        let n = len as f64;
        let k = (0.5 + n * target_hz / f64::from(crate::resample::WORKING_SAMPLE_RATE_HZ)).floor();
        2.0 * (2.0 * std::f64::consts::PI * k / n).cos()
    }
}
