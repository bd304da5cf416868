/// What test programs may use of this file.
pub mod access {
    use super::*;

    /// Angles of a pass.
    pub const ANGLES: usize = 240;

    /// The angle with the number `q`, in degrees.
    pub fn angle_degrees(q: usize) -> f64 {
        MIN_SLANT_DEG + (q as f64) * SLANT_STEP_DEG
    }

    /// Sine and cosine as a vote takes them, tangent as the new rate does.
    pub fn sine(q: usize) -> f64 {
        deg2rad(angle_degrees(q)).sin()
    }

    pub fn cosine(q: usize) -> f64 {
        deg2rad(angle_degrees(q)).cos()
    }

    pub fn tangent(q: usize) -> f64 {
        deg2rad(90.0 - angle_degrees(q)).tan()
    }

    /// W. The line stands inside `find_sync`; that both agree is tested by
    /// running the passes with it.
    pub fn line_width(spec: ModeSpec) -> usize {
        (((spec.line_seconds / spec.sync_seconds) * 4.0) as usize).max(1)
    }

    /// P, likewise copied from `find_sync`.
    pub fn image_probes(spec: ModeSpec, initial_rate_hz: f64) -> usize {
        (f64::from(spec.radio_lines()) * spec.line_seconds * initial_rate_hz
            / SYNC_PROBE_STRIDE as f64)
            .ceil() as usize
    }

    pub fn sync_pulse_columns(spec: ModeSpec, n: usize) -> usize {
        super::sync_pulse_columns(spec, n)
    }

    pub fn best_pulse_window(counts: &[u32], width: usize) -> (usize, u64) {
        super::best_pulse_window(counts, width)
    }

    /// How many starts of the ring reach the largest sum: each window is summed by
    /// itself. The Rust has no such count; its own start and sum have to be the
    /// ones that come out here.
    pub fn windows_with_largest(counts: &[u32], width: usize) -> usize {
        let ring = [counts, counts].concat();
        let mut sums = Vec::new();
        for start in 0..counts.len() {
            let mut sum = 0;
            for &count in &ring[start..start + width] {
                sum += u64::from(count);
            }
            sums.push(sum);
        }
        let (start, largest) = super::best_pulse_window(counts, width);
        assert_eq!(sums.iter().max(), Some(&largest), "the Rust's sum");
        assert_eq!(sums.iter().position(|&sum| sum == largest), Some(start));
        sums.iter().filter(|&&sum| sum == largest).count()
    }

    pub fn sync_quality(counts: &[u32], spec: ModeSpec, lines: usize) -> f32 {
        super::sync_quality(counts, spec, lines)
    }

    pub fn falling_edge(counts: &[u32]) -> i32 {
        falling_edge_from_x_acc(counts)
    }

    /// Lent memory of `find_sync`.
    #[derive(Default)]
    pub struct Scratch(FindSyncScratch);

    /// What `find_sync` gives.
    #[derive(Clone, Copy, Debug, PartialEq)]
    pub struct Found {
        pub rate: f64,
        pub skip: i64,
        pub slant: Option<f64>,
        pub quality: f32,
    }

    pub fn find_sync(flags: &[bool], rate: f64, spec: ModeSpec, scratch: &mut Scratch) -> Found {
        let found = super::find_sync(flags, rate, spec, &mut scratch.0);
        Found {
            rate: found.adjusted_rate_hz,
            skip: found.skip_samples,
            slant: found.slant_deg,
            quality: found.sync_quality,
        }
    }

    /// One pass: angle and new rate.
    pub fn pass(
        flags: &[bool],
        rate: f64,
        spec: ModeSpec,
        scratch: &mut Scratch,
    ) -> Option<(f64, f64)> {
        hough_detect_slant(flags, rate, spec, line_width(spec), &mut scratch.0)
    }

    /// A tracker: `has_sync_at` over the injected spectrum.
    pub struct Tracker(SyncTracker);

    impl Tracker {
        pub fn new(shift_hz: f64) -> Self {
            Self(SyncTracker::new(shift_hz))
        }

        pub fn has_sync_at(&mut self, audio: &[f32], centre: usize) -> bool {
            self.0.has_sync_at(audio, centre)
        }

        /// Bins of sync, lower and upper end of the video band.
        pub fn bins(&self) -> (usize, usize, usize) {
            let t = &self.0;
            (t.sync_target_bin, t.video_lo_bin, t.video_hi_bin)
        }
    }
}
