//! A synthesised transmission: line-sync pulses, a grey picture, slant and
//! noise. It is what `./run` and the tests listen to.

use crate::modes::ModeTiming;
use crate::wav::WORKING_SAMPLE_RATE_HZ;
use std::f64::consts::TAU;

/// How a picture is sent.
#[derive(Clone, Copy, Debug)]
pub struct Picture {
    pub timing: ModeTiming,
    /// The sender's sampling rate as the receiver hears it, in Hz.
    pub true_rate_hz: f64,
    /// Noise as a part of full scale.
    pub noise: f32,
    pub seed: u64,
}

/// A tone generator that keeps its phase, with noise.
struct Tone {
    phase: f64,
    noise: f32,
    state: u64,
}

impl Tone {
    fn random(&mut self) -> f32 {
        self.state ^= self.state << 13;
        self.state ^= self.state >> 7;
        self.state ^= self.state << 17;
        #[allow(clippy::cast_precision_loss)]
        let unit = (self.state >> 40) as f32 / (1_u32 << 24) as f32;
        unit * 2.0 - 1.0
    }

    #[allow(clippy::cast_possible_truncation)]
    fn sample(&mut self, hz: f64) -> f32 {
        self.phase = (self.phase + TAU * hz / f64::from(WORKING_SAMPLE_RATE_HZ)) % TAU;
        (0.6 * self.phase.sin()) as f32 + self.noise * self.random()
    }
}

const SYNC_HZ: f64 = 1200.0;
const BLACK_HZ: f64 = 1500.0;
const WHITE_HZ: f64 = 2300.0;
const EVEN_SEPARATOR_HZ: f64 = 1500.0;
const ODD_SEPARATOR_HZ: f64 = 2300.0;

/// The tone at a time within a picture, in seconds of the sender's clock.
fn tone_at(timing: &ModeTiming, seconds: f64) -> f64 {
    let line = (seconds / timing.line_seconds).floor();
    let within = seconds - line * timing.line_seconds;
    let pulse = within - timing.pulse_offset_seconds;
    if (0.0..timing.sync_seconds).contains(&pulse) {
        return SYNC_HZ;
    }
    if let Some(separator) = timing.parity_separator_seconds {
        if (separator..separator + 0.0045).contains(&within) {
            return if line % 2.0 == 0.0 {
                EVEN_SEPARATOR_HZ
            } else {
                ODD_SEPARATOR_HZ
            };
        }
    }
    // a grey ramp along each line
    BLACK_HZ + (WHITE_HZ - BLACK_HZ) * (within / timing.line_seconds)
}

/// `before` seconds of noise, the picture, `after` seconds of noise.
#[must_use]
#[allow(
    clippy::cast_possible_truncation,
    clippy::cast_sign_loss,
    clippy::cast_precision_loss
)]
pub fn transmission(picture: &Picture, before: f64, after: f64) -> Vec<f32> {
    let rate = f64::from(WORKING_SAMPLE_RATE_HZ);
    let mut tone = Tone {
        phase: 0.0,
        noise: picture.noise,
        state: picture.seed | 1,
    };
    let mut sound = Vec::new();
    for _ in 0..(before * rate) as usize {
        let quiet = tone.noise * tone.random();
        sound.push(quiet);
    }
    let seconds = picture.timing.line_seconds * f64::from(picture.timing.radio_lines);
    for n in 0..(seconds * picture.true_rate_hz) as usize {
        let hz = tone_at(&picture.timing, n as f64 / picture.true_rate_hz);
        sound.push(tone.sample(hz));
    }
    for _ in 0..(after * rate) as usize {
        let quiet = tone.noise * tone.random();
        sound.push(quiet);
    }
    for s in &mut sound {
        *s = s.clamp(-1.0, 1.0);
    }
    sound
}
