//! sync_start_vectors: evaluations and whole searches of the start.

use crate::modes::MODES;
use crate::record::Records;
use crate::ring;
use crate::rng::Rng;
use crate::scene::{is_robot, Scene, Sound, RATE};
use crate::search::{
    answer, evaluate, flag_words, kept, piece_words, placed, taken_at, Evaluation, Search, COLUMNS,
};
use crate::shaped;
use crate::tally::Tally;
use slowrx::modespec::access::spec;
use slowrx::sync::access::{best_pulse_window, sync_pulse_columns};
use slowrx::sync_start::access::{self as sync_start, Placed, Start};

const CLASSES: [&str; 27] = [
    "search without a start",
    "search of silence",
    "failed locate, streak kept, start found later",
    "streak broken and built again to a start",
    "evaluation with quality exactly 0.6",
    "evaluation just below 0.6",
    "start held at 0",
    "start in the middle of the list",
    "odd first line, Robot 24",
    "odd first line, Robot 36",
    "even first line, Robot 24",
    "even first line, Robot 36",
    "no parity tones",
    "segments passed over as not known",
    "wide pulse past column 699",
    "narrow pulse past column 699",
    "wide pulse, first line not line 0",
    "narrow pulse, first line not line 0",
    "found at evaluation 0 or 1, driven directly",
    "no lead-in",
    "lead-in below 64 flags",
    "lead-in below a line",
    "lead-in of some lines",
    "lead-in of more than a window",
    "weak first lines",
    "lower end of a line's search held at 0, driven directly",
    "start whose first and last window have the largest sum",
];

/// What puts the records together.
pub struct Driver {
    records: Records,
    /// What was reached.
    pub tally: Tally,
}

/// All vectors of the start search.
///
/// # Errors
/// Classes that were not reached.
pub fn vectors() -> Result<Records, String> {
    let mut tally = Tally::new("sync_start", &CLASSES);
    for class in shaped::CLASSES {
        tally.announce(class.to_string());
    }
    ring::announce_start(&mut tally, "");
    for mode in 0..MODES {
        tally.announce(format!("start in mode {mode}"));
    }
    let mut driver = Driver {
        records: Records::default(),
        tally,
    };
    let mut rng = Rng::new(6);
    for mode in 0..MODES {
        scenes(&mut driver, &mut rng, mode);
        scenes(&mut driver, &mut rng, mode);
        singles(&mut driver, &mut rng, mode);
        shaped::evaluations(&mut driver, &mut rng, mode);
    }
    let mut rng = Rng::new(16);
    for mode in 0..MODES {
        flat_tops(&mut driver, &mut rng, mode);
    }
    driver.tally.report()?;
    Ok(driver.records)
}

impl Driver {
    /// Op 1: a whole search.
    pub fn search(&mut self, mode: usize, sound: &Sound) -> Option<Start> {
        let mut search = Search::new(mode, &sound.samples[..4]);
        let mut start = None;
        for (p, &flag) in sound.flags.iter().enumerate() {
            start = search.step(flag, &sound.samples[4 * p + 4..4 * p + 8]);
            if start.is_some() {
                break;
            }
        }
        let evaluations = &search.evaluations;
        let qualities = evaluations.iter().map(|e| e.quality.to_bits());
        let mut payload = flag_words(&sound.flags);
        payload.extend(qualities.flat_map(u32::to_le_bytes));
        payload.extend(piece_words(&sound.samples));
        let made = evaluations.len() as u64;
        let last = evaluations.last().copied().unwrap_or(Evaluation {
            quality: 0.0,
            streak: 0,
            start: None,
        });
        let a = [mode as u64, sound.flags.len() as u64, made];
        self.records.long(1, a, answer(last), &payload);
        self.note_search(mode, sound, evaluations);
        start
    }

    /// Op 0: one evaluation.
    pub fn evaluation(&mut self, mode: usize, sound: &Sound, j: usize, streak: u32) -> Evaluation {
        let taken = taken_at(mode, j);
        let made = evaluate(mode, sound, j, streak);
        let mut payload = flag_words(&sound.flags[..taken]);
        payload.extend(piece_words(sound.known(taken)));
        let a = [mode as u64, j as u64, u64::from(streak)];
        self.records.long(0, a, answer(made), &payload);
        self.note_evaluation(mode, sound, j, made);
        made
    }

    fn note_search(&mut self, mode: usize, sound: &Sound, evaluations: &[Evaluation]) {
        let mut streak = 0;
        let (mut failed, mut broken, mut built) = (false, false, false);
        for (j, &made) in evaluations.iter().enumerate() {
            let alone = evaluate(mode, sound, j, streak);
            assert_eq!(alone.quality.to_bits(), made.quality.to_bits());
            assert_eq!((alone.streak, alone.start), (made.streak, made.start));
            broken |= built && made.streak == 0;
            built |= made.streak > 0;
            failed |= made.streak >= 3 && made.start.is_none();
            streak = made.streak;
            self.note_evaluation(mode, sound, j, made);
        }
        let found = evaluations.last().is_some_and(|e| e.start.is_some());
        let tally = &mut self.tally;
        if found {
            ring::note_streak(tally, "", mode, sound, evaluations.len() - 1);
        }
        tally.note("search without a start", !found);
        tally.note("search of silence", !sound.flags.contains(&true));
        tally.note(
            "failed locate, streak kept, start found later",
            failed && found,
        );
        tally.note("streak broken and built again to a start", broken && found);
        tally.note(&format!("start in mode {mode}"), found);
    }

    fn note_evaluation(&mut self, mode: usize, sound: &Sound, j: usize, made: Evaluation) {
        let tally = &mut self.tally;
        let sixth = made.quality.to_bits() == 0.6_f32.to_bits();
        tally.note("evaluation with quality exactly 0.6", sixth);
        let below = made.quality < 0.6 && made.quality > 0.55;
        tally.note("evaluation just below 0.6", below);
        let Some(Start { position, .. }) = made.start else {
            return;
        };
        let row = spec(mode);
        let placed = placed(mode, sound, j, kept(j), 0);
        let width = sync_pulse_columns(row, COLUMNS);
        let counts = placed.counts();
        ring::note_start(tally, "", mode, &counts);
        let name = "start whose first and last window have the largest sum";
        tally.note(name, ring::ties_over_the_end(&counts, width));
        let (column, _) = best_pulse_window(&counts, width);
        let wide = width >= sync_start::WIDE;
        let line = placed
            .first_pulsed_line(column, width)
            .expect("there was a start");
        assert_eq!(placed.locate_start(column, width), Some(position));
        tally.note(
            "wide pulse past column 699",
            wide && column + width > COLUMNS,
        );
        tally.note(
            "narrow pulse past column 699",
            !wide && column + width > COLUMNS,
        );
        tally.note("wide pulse, first line not line 0", wide && line > 0);
        tally.note("narrow pulse, first line not line 0", !wide && line > 0);
        tally.note("start held at 0", position == 0);
        tally.note("start in the middle of the list", position > 0);
        tally.note("found at evaluation 0 or 1, driven directly", j < 2);
        let before = j == 0 && (column as f64 / 700.0) * row.line_seconds * RATE / 4.0 < 4.0;
        let name = "lower end of a line's search held at 0, driven directly";
        tally.note(name, before && !wide && line == 0);
        if is_robot(mode) {
            self.note_parity(mode, sound, j, &placed, line, column);
        }
    }

    fn note_parity(
        &mut self,
        mode: usize,
        sound: &Sound,
        j: usize,
        placed: &Placed,
        line: usize,
        column: usize,
    ) {
        let row = spec(mode);
        let pulse = (line as f64 + column as f64 / 700.0) * row.line_seconds;
        let line_start = (4 * 64 * j) as f64 + pulse * RATE;
        let odd = placed.first_line_is_odd(line_start);
        let name = if mode == 3 { "Robot 24" } else { "Robot 36" };
        self.tally.note(&format!("odd first line, {name}"), odd);
        self.tally.note(&format!("even first line, {name}"), !odd);
        let known = sound.known(taken_at(mode, j));
        let quiet = known.iter().all(|&s| s == 0.0);
        self.tally.note("no parity tones", quiet);
        let separator = row.sync_seconds
            + row.porch_seconds
            + 2.0 * f64::from(row.line_pixels) * row.pixel_seconds;
        let last = (sync_start::window_lines(row) - 1) as f64;
        let from = line_start + (last * row.line_seconds + separator) * RATE;
        let unknown = from.round() as usize + 49 > known.len();
        self.tally
            .note("segments passed over as not known", unknown);
    }
}

/// Pictures of one mode, coming in in many ways.
fn scenes(driver: &mut Driver, rng: &mut Rng, mode: usize) {
    let row = spec(mode);
    let line = (row.line_seconds * RATE / 4.0) as usize;
    let w = taken_at(mode, 0);
    let more = |rng: &mut Rng| w + 64 * (4 + rng.index(12));
    let put = |driver: &mut Driver, rng: &mut Rng, scene: Scene| {
        let sound = scene.sound(rng);
        let start = driver.search(mode, &sound);
        let lead = scene.lead_in;
        let found = start.is_some();
        let tally = &mut driver.tally;
        tally.note("no lead-in", found && lead == 0);
        tally.note("lead-in below 64 flags", found && lead > 0 && lead < 64);
        tally.note("lead-in below a line", found && lead >= 64 && lead < line);
        tally.note("lead-in of some lines", found && lead >= line && lead <= w);
        tally.note("lead-in of more than a window", found && lead > w);
        tally.note("weak first lines", found && scene.weak > 0);
    };
    put(driver, rng, Scene::clean(mode, 0, w + 64 * 4));
    let leads = [
        1 + rng.index(63),
        64 + rng.index(line - 64),
        line + rng.index(line * 4),
    ];
    for lead in leads {
        let mut scene = Scene::clean(mode, lead, lead + more(rng));
        scene.odd_first = rng.permille(500);
        scene.bursts = rng.index(30);
        put(driver, rng, scene);
    }
    // the pulse lies across the window's start at evaluation 2
    let pulse = (row.sync_seconds * RATE / 4.0) as usize;
    for part in [3, 5] {
        let mut scene = Scene::clean(mode, 128 + line - pulse * part / 8, w + 64 * 8);
        scene.odd_first = part == 3;
        put(driver, rng, scene);
    }
    if w < 8_000 || mode.is_multiple_of(3) {
        let far = w + rng.index(line * 2);
        let scene = Scene::clean(mode, far, far + more(rng));
        put(driver, rng, scene);
    }
    for weak in [1, 3] {
        let mut scene = Scene::clean(mode, rng.index(line * 2), 0);
        scene.flags = scene.lead_in + more(rng) + line;
        scene.weak = weak;
        scene.odd_first = weak == 1;
        scene.slower = (rng.unit() - 0.5) * 2e-4;
        put(driver, rng, scene);
    }
    // pulses that are broken at first: narrow modes find no clean line
    let lines = sync_start::window_lines(row);
    let mut scene = Scene::clean(mode, rng.index(200), 0);
    scene.broken = lines + rng.index(2);
    scene.flags = scene.lead_in + w + line * 4;
    put(driver, rng, scene);
    // pulses that stay away for a while
    let mut scene = Scene::clean(mode, 0, w + line * (lines + 2));
    scene.lead_in = line * (lines * 3 / 8) + rng.index(line);
    scene.gap = (lines * 5 / 8, lines * 3 / 8 + 1);
    if w < 12_000 {
        put(driver, rng, scene);
    }
    // noise, and noise with lines missing
    let mut scene = Scene::clean(mode, rng.index(line), more(rng) + line);
    scene.missing = 150 + rng.below(200);
    scene.bursts = 120;
    scene.odd_first = rng.permille(500);
    scene.tones = if rng.permille(300) { 0.0 } else { 0.1 };
    put(driver, rng, scene);
    let mut noise = Sound::silent(w + 64 * 5);
    crate::train::bursts(&mut noise.flags, 150, 30, rng);
    driver.search(mode, &noise);
    driver.search(mode, &Sound::silent(w + 64 * 3 + 17));
    driver.search(mode, &Sound::silent(w - 1));
    if is_robot(mode) {
        let mut scene = Scene::clean(mode, line * 5, w + line * 6);
        scene.tones = 0.0;
        put(driver, rng, scene);
    }
}

/// Pulses that are longer than the mode's, as a carrier gives them: several
/// windows have the largest sum.
fn flat_tops(driver: &mut Driver, rng: &mut Rng, mode: usize) {
    let row = spec(mode);
    let flags = |seconds: f64| (seconds * RATE / 4.0) as usize;
    let (line, pulse) = (flags(row.line_seconds), flags(row.sync_seconds));
    let lengths = [1 + pulse / 8, pulse / 2, pulse, 2 * pulse, 3 * pulse];
    let anywhere = lengths.map(|longer| (rng.index(line), longer));
    // the pulse lies across the window's start at evaluation 2
    let across = ((128 + line - 3 * pulse / 2) % line, 2 * pulse);
    for (lead_in, longer) in anywhere.into_iter().chain([across]) {
        let mut scene = Scene::clean(mode, lead_in, taken_at(mode, 8));
        scene.longer = longer;
        scene.tones = 0.0;
        driver.search(mode, &scene.sound(rng));
    }
    for _ in 0..2 {
        driver.search(mode, &shaped::three_counts(rng, mode));
    }
}

/// Single evaluations with any streak before them.
fn singles(driver: &mut Driver, rng: &mut Rng, mode: usize) {
    let row = spec(mode);
    let line = (row.line_seconds * RATE / 4.0) as usize;
    for i in 0..12 {
        let j = [0, 1, 2, 3, 7, 20][i % 6];
        let mut scene = Scene::clean(mode, rng.index(line * 2), taken_at(mode, j));
        scene.bursts = [0, 5, 60][i % 3];
        scene.missing = [0, 100][i % 2];
        scene.weak = rng.index(3);
        scene.odd_first = rng.permille(500);
        let sound = scene.sound(rng);
        driver.evaluation(mode, &sound, j, rng.pick(&[0, 1, 2, 2, 3, 9]));
    }
    for lead_in in [0, 2, 3] {
        let sound = Scene::clean(mode, lead_in, taken_at(mode, 0)).sound(rng);
        driver.evaluation(mode, &sound, 0, 2);
    }
}
