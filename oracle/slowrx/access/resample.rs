/// What test programs may use of this file.
pub mod access {
    /// The working rate as the other files use it.
    pub fn working_rate() -> f64 {
        f64::from(super::WORKING_SAMPLE_RATE_HZ)
    }
}
