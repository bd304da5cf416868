//! The inner functions of the start search (data/inner).

use crate::modes::MODES;
use crate::record::Records;
use crate::rng::Rng;
use crate::scene::{Scene, RATE};
use crate::search::{flag_words, kept, placed, taken_at, COLUMNS, NOWHERE};
use crate::tally::Tally;
use slowrx::modespec::access::spec;
use slowrx::sync::access::sync_pulse_columns;
use slowrx::sync_start::access as sync_start;

/// The inner functions, for what no evaluation reaches: any column is asked
/// about, not only the best one. Op 2 is `first_pulsed_line` (a mode, b j,
/// c column; x line or none).
///
/// # Errors
/// Classes that were not reached.
pub fn vectors() -> Result<Records, String> {
    let mut tally = Tally::new(
        "sync_start: inner functions",
        &[
            "wide pulse, no line has half its columns: line 0",
            "wide pulse, a line with exactly half its columns",
            "wide pulse past column 699 in the last line",
            "narrow pulse, no line",
            "narrow pulse, a line",
            "line pulsed",
            "line not pulsed",
        ],
    );
    let mut records = Records::default();
    let mut rng = Rng::new(7);
    for mode in 0..MODES {
        let row = spec(mode);
        let line = (row.line_seconds * RATE / 4.0) as usize;
        let width = sync_pulse_columns(row, COLUMNS);
        let wide = width >= sync_start::WIDE;
        for i in 0..14 {
            let j = [0, 1, 2, 6][i % 4];
            let mut scene = Scene::clean(mode, rng.index(line), taken_at(mode, j));
            scene.bursts = 40;
            scene.missing = 300;
            scene.weak = 4;
            let sound = scene.sound(&mut rng);
            let placed = placed(mode, &sound, j, kept(j), 0);
            let aimed = (scene.lead_in + 7 * line - 64 * j) % line * COLUMNS / line;
            let column = match i % 3 {
                0 => rng.index(COLUMNS),
                1 => aimed,
                _ => (aimed + COLUMNS - width / 2 + rng.index(width + 1)) % COLUMNS,
            };
            let payload = flag_words(&sound.flags);
            let found = placed.first_pulsed_line(column, width);
            let a = [mode as u64, j as u64, column as u64];
            let x = found.map_or(NOWHERE, |y| y as u64);
            records.long(2, a, [x, 0, 0], &payload);
            let hits = |y: usize| placed.hits(y, column, width);
            let none = (0..sync_start::window_lines(row)).all(|y| 2 * hits(y) < width);
            let half = found.is_some_and(|y| 2 * hits(y) == width);
            let name = "wide pulse, no line has half its columns: line 0";
            tally.note(name, wide && none);
            let name = "wide pulse, a line with exactly half its columns";
            tally.note(name, wide && half);
            let name = "wide pulse past column 699 in the last line";
            tally.note(name, wide && none && column + width > COLUMNS);
            tally.note("narrow pulse, no line", !wide && found.is_none());
            tally.note("narrow pulse, a line", !wide && found.is_some());
            let y = rng.index(sync_start::window_lines(row));
            let pulsed = placed.line_is_pulsed(y, column);
            tally.note("line pulsed", pulsed);
            tally.note("line not pulsed", !pulsed);
        }
    }
    tally.report()?;
    Ok(records)
}
