/// What test programs may use of this file.
pub mod access {
    use super::*;

    /// The row of the mode with this number: the place in `SstvMode`.
    pub fn spec(number: usize) -> ModeSpec {
        let spec = ALL_SPECS[number];
        assert_eq!(spec.mode as usize, number);
        assert_eq!(for_mode(spec.mode), spec);
        spec
    }

    pub fn layout(spec: ModeSpec) -> u64 {
        spec.channel_layout as u64
    }

    pub fn sync_position(spec: ModeSpec) -> u64 {
        spec.sync_position as u64
    }

    pub fn radio_lines(spec: ModeSpec) -> u32 {
        spec.radio_lines()
    }

    pub fn skip_correction_seconds(spec: ModeSpec) -> f64 {
        spec.skip_correction_seconds()
    }
}
