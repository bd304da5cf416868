//! What sessions hear: pictures that come in in many ways, silence, noise.

use drive::modes::MODES;
use drive::plain::{shortest, Heard};
use drive::rng::Rng;
use drive::scene::{is_robot, Scene, Sound, RATE};
use drive::search::taken_at;
use slowrx::modespec::access::spec;
use slowrx::sync::access as sync;
use slowrx::sync_start::access as sync_start;

/// What comes in, and the flag store's length.
pub struct Picture {
    /// What the Rust makes of it.
    pub heard: Heard,
    /// The flags as the port takes them.
    pub flags: Vec<u8>,
    /// F.
    pub capacity: usize,
}

impl Picture {
    fn new(heard: Heard, capacity: usize) -> Self {
        let flags = heard.sound.flags.iter().map(|&flag| u8::from(flag));
        Self {
            flags: flags.collect(),
            heard,
            capacity,
        }
    }

    /// Flags that a session takes before it ends.
    #[must_use]
    pub fn last(&self) -> usize {
        let full = self.heard.full();
        full.map_or(self.capacity, |full| full.min(self.capacity))
    }
}

/// Flags of a line.
fn line_flags(mode: usize) -> usize {
    (spec(mode).line_seconds * RATE / 4.0) as usize
}

/// The way in which the picture of a round comes in. In 128 rounds each of the
/// sixteen modes has each of the eight.
fn scene(rng: &mut Rng, mode: usize, way: u64) -> Scene {
    let line = line_flags(mode);
    let w = taken_at(mode, 0);
    let lines = sync_start::window_lines(spec(mode));
    let mut scene = Scene::clean(mode, rng.index(line), 0);
    scene.slower = match rng.below(3) {
        0 => 0.0,
        _ => (rng.unit() - 0.5) / sync::line_width(spec(mode)) as f64 * 0.4,
    };
    scene.bursts = rng.pick(&[0, 20, 60]);
    scene.missing = rng.pick(&[0, 0, 80]);
    match way {
        // the first pulse lies where the third window begins
        1 => scene.lead_in = 128 + rng.index(100),
        2 | 3 => scene.lead_in = w + line * 3 + rng.index(line),
        // broken pulses: narrow ones have no clean line at first
        4 => {
            scene.lead_in = rng.index(200);
            scene.broken = lines + rng.index(2);
            scene.missing = 0;
        }
        // pulses that stay away for a while
        5 => {
            scene.lead_in = line * (lines * 3 / 8) + rng.index(line);
            scene.gap = (lines * 5 / 8, lines * 3 / 8 + 1);
        }
        // the pulse lies across the window's start
        6 => {
            let pulse = (spec(mode).sync_seconds * RATE / 4.0) as usize;
            scene.lead_in = 128 + line - pulse * (3 + rng.index(3)) / 8;
            scene.weak = rng.index(2);
        }
        7 => {
            scene.missing = 150 + rng.below(200);
            scene.bursts = 120;
        }
        _ => {}
    }
    if matches!(way, 1 | 6) {
        (scene.missing, scene.slower) = (0, 0.0);
    }
    scene
}

/// Noise over all samples, as far as they stay within 1.
fn hiss(rng: &mut Rng, sound: &mut Sound, strength: f32) {
    for sample in &mut sound.samples {
        *sample = (*sample + rng.sample() * strength).clamp(-1.0, 1.0);
    }
}

/// The picture of a round.
pub fn regular(rng: &mut Rng, round: u64) -> Picture {
    let mode = (round % MODES as u64) as usize;
    let way = round / MODES as u64 % 8;
    let mut scene = scene(rng, mode, way);
    let turn = round / MODES as u64 + round / (8 * MODES as u64);
    scene.odd_first = turn.is_multiple_of(2);
    scene.tones = rng.pick(&[0.5, 0.5, 0.1, 0.0]);
    scene.tone_lines = 0..36;
    let w = taken_at(mode, 0);
    scene.flags = shortest(mode) + 2 * w + 6_000 + scene.lead_in;
    let flags = scene.flags;
    let mut sound = scene.sound(rng);
    if is_robot(mode) && rng.permille(400) {
        let strength = rng.pick(&[0.05, 0.3, 1.0]);
        hiss(rng, &mut sound, strength);
    }
    let heard = Heard::new(mode, sound);
    let full = heard.full().filter(|&full| full > shortest(mode));
    let capacity = match (way, full) {
        (0, _) => shortest(mode),
        (2, Some(full)) => full.min(flags),
        (3, Some(full)) => (full - 1).min(flags),
        _ => shortest(mode) + 1 + rng.index(w + 4_000),
    };
    Picture::new(heard, capacity)
}

/// A start that depends on one flag or two, with silence after it.
pub fn hanging(rng: &mut Rng, mode: usize) -> Picture {
    let capacity = shortest(mode) + rng.index(3_000);
    let flags = capacity + 500;
    let mut sound = drive::shaped::hanging(rng, mode);
    sound.silence(flags);
    Picture::new(Heard::new(mode, sound), capacity)
}

/// A start with several windows of the largest sum: a list whose evaluations have
/// three counts, or a picture with longer pulses, now and then cut short. Only
/// its first lines have pulses.
pub fn flat_top(rng: &mut Rng, mode: usize) -> Picture {
    let roomy = shortest(mode) + rng.index(3_000);
    if rng.permille(400) {
        let mut sound = drive::shaped::three_counts(rng, mode);
        sound.silence(roomy + 500);
        return Picture::new(Heard::new(mode, sound), roomy);
    }
    let (line, w) = (line_flags(mode), taken_at(mode, 0));
    let far = rng.permille(600);
    let lead_in = if far { w + 3 * line } else { 0 } + rng.index(line);
    let mut scene = Scene::clean(mode, lead_in, roomy + lead_in);
    let pulse = (spec(mode).sync_seconds * RATE / 4.0) as usize;
    scene.longer = rng.pick(&[1 + pulse / 8, pulse / 2, pulse, 2 * pulse, 3 * pulse]);
    scene.gap = (2 * sync_start::window_lines(spec(mode)), usize::MAX);
    let heard = Heard::new(mode, scene.sound(rng));
    let full = heard.full().filter(|&full| full > shortest(mode));
    let capacity = full.map_or(roomy, |full| full - rng.index(2));
    Picture::new(heard, capacity)
}

/// Noise up to F, or silence.
pub fn unfound(rng: &mut Rng, mode: usize) -> Picture {
    let capacity = shortest(mode) + rng.index(700);
    let mut sound = Sound::silent(capacity + 900);
    if rng.permille(800) {
        drive::train::bursts(&mut sound.flags, 400, 20, rng);
    }
    Picture::new(Heard::new(mode, sound), capacity)
}

/// A start that is found exactly at F, or would be at the next evaluation.
pub fn late(rng: &mut Rng, mode: usize) -> Picture {
    let lead_in = shortest(mode) + rng.index(1_000);
    let flags = lead_in + 2 * taken_at(mode, 0);
    let heard = Heard::new(mode, Scene::clean(mode, lead_in, flags).sound(rng));
    let at = heard.start.map_or(flags, |(taken, _)| taken);
    let less = usize::from(rng.permille(300));
    Picture::new(heard, at - less)
}

/// Only lines that are not known yet when the start is found have a tone. It
/// must not be heard, though it comes in the same piece.
pub fn later_tones(rng: &mut Rng, mode: usize) -> Picture {
    let mut scene = Scene::clean(mode, 5 * line_flags(mode), shortest(mode) + 9_000);
    scene.odd_first = true;
    scene.tone_lines = 10..40;
    Picture::new(Heard::new(mode, scene.sound(rng)), shortest(mode) + 8_000)
}
