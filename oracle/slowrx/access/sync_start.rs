/// What test programs may use of this file.
pub mod access {
    use super::*;

    pub fn window_lines(spec: ModeSpec) -> usize {
        super::window_lines(spec)
    }

    pub fn window_probes(spec: ModeSpec) -> usize {
        SyncStartDetector::new(spec).window_probes()
    }

    pub fn pulse_offset_seconds(spec: ModeSpec) -> f64 {
        super::pulse_offset_seconds(spec)
    }

    pub const WIDE: usize = WIDE_PULSE_COLUMNS;

    /// A start.
    #[derive(Clone, Copy, Debug, PartialEq)]
    pub struct Start {
        pub position: u64,
        pub quality: f32,
        /// How many windows have the largest sum, in the fold of the evaluation
        /// that found it. The Rust has no such count.
        pub windows: usize,
    }

    /// The fold of the window from flag `first` on, as `evaluate` makes it.
    fn fold(detector: &SyncStartDetector, first: usize) -> Vec<u32> {
        let lines = 0..detector.window_lines;
        let hit = |y: usize, x: usize| {
            let position = y as f64 + x as f64 / X_ACC_BINS as f64;
            u32::from(detector.probe_at(first, position))
        };
        let column = |x| lines.clone().map(|y| hit(y, x)).sum();
        (0..X_ACC_BINS).map(column).collect()
    }

    /// A start that the window from flag `first` on gave.
    fn counted(detector: &SyncStartDetector, first: usize, start: SyncStart) -> Start {
        let width = sync_pulse_columns(detector.spec, X_ACC_BINS);
        let counts = fold(detector, first);
        Start {
            position: start.start_sample,
            quality: start.quality,
            windows: crate::sync::access::windows_with_largest(&counts, width),
        }
    }

    /// The detector. Its flags come from the injected spectrum.
    pub struct Detector(SyncStartDetector);

    impl Detector {
        pub fn new(spec: ModeSpec) -> Self {
            Self(SyncStartDetector::new(spec))
        }

        pub fn process(&mut self, samples: &[f32], total_samples_consumed: u64) {
            self.0.process(samples, total_samples_consumed);
        }

        /// The start found, if any. It stays, and so do the flags that it was
        /// found with.
        pub fn start(&self) -> Option<Start> {
            let first = || self.0.probes.len() - self.0.window_probes();
            let pending = self.0.pending;
            pending.map(|start| counted(&self.0, first(), start))
        }

        /// Whether the last flag was followed by an evaluation.
        pub fn has_just_evaluated(&self) -> bool {
            self.0.since_eval == 0 && !self.0.probes.is_empty()
        }

        pub fn last_quality(&self) -> f32 {
            self.0.last_quality
        }

        pub fn streak(&self) -> u32 {
            self.0.streak
        }
    }

    /// A detector put into a given state, to drive its inner functions.
    pub struct Placed {
        detector: SyncStartDetector,
        first: usize,
    }

    impl Placed {
        /// The state in which evaluation `j` finds these flags and samples,
        /// both counted from 0, with `kept` flags before the window.
        pub fn new(
            spec: ModeSpec,
            flags: &[bool],
            samples: &[f32],
            j: usize,
            kept: usize,
            streak: u32,
        ) -> Self {
            let mut detector = SyncStartDetector::new(spec);
            let oldest = 64 * j - kept;
            detector.probes = flags[oldest..].to_vec();
            detector.probe_origin = (oldest * SYNC_PROBE_STRIDE) as u64;
            detector.audio = samples.to_vec();
            detector.streak = streak;
            detector.anchored = true;
            let first = kept;
            Self { detector, first }
        }

        pub fn evaluate(&mut self) -> Option<Start> {
            let start = self.detector.evaluate(self.first)?;
            Some(counted(&self.detector, self.first, start))
        }

        pub fn last_quality(&self) -> f32 {
            self.detector.last_quality
        }

        pub fn streak(&self) -> u32 {
            self.detector.streak
        }

        /// The fold of the window.
        pub fn counts(&self) -> Vec<u32> {
            fold(&self.detector, self.first)
        }

        pub fn first_pulsed_line(&self, column: usize, width: usize) -> Option<usize> {
            self.detector.first_pulsed_line(self.first, column, width)
        }

        /// Columns of line `y` that are set, from `column` on.
        pub fn hits(&self, y: usize, column: usize, width: usize) -> usize {
            let hit = |c: &usize| {
                let position = y as f64 + *c as f64 / X_ACC_BINS as f64;
                self.detector.probe_at(self.first, position)
            };
            (column..column + width).filter(hit).count()
        }

        pub fn line_is_pulsed(&self, y: usize, column: usize) -> bool {
            self.detector.line_is_pulsed(self.first, y, column)
        }

        pub fn locate_start(&self, column: usize, width: usize) -> Option<u64> {
            self.detector.locate_start(self.first, column, width)
        }

        pub fn first_line_is_odd(&self, line_start: f64) -> bool {
            self.detector.first_line_is_odd(line_start)
        }
    }

    /// Every evaluation of a search without a start, and nothing of the
    /// probing between them: for timing.
    pub struct EvaluateAll {
        detector: SyncStartDetector,
        evaluations: usize,
    }

    impl EvaluateAll {
        pub fn new(spec: ModeSpec, flags: &[bool]) -> Self {
            let mut detector = SyncStartDetector::new(spec);
            detector.probes = flags.to_vec();
            let evaluations = (flags.len() - detector.window_probes()) / 64 + 1;
            Self {
                detector,
                evaluations,
            }
        }

        /// The sum of the qualities.
        pub fn run(&mut self) -> f32 {
            let mut sum = 0.0;
            for j in 0..self.evaluations {
                assert!(self.detector.evaluate(64 * j).is_none());
                sum += self.detector.last_quality;
            }
            sum
        }

        pub fn evaluations(&self) -> usize {
            self.evaluations
        }
    }
}
