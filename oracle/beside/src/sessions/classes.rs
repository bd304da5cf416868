//! What the sessions reached.

use super::FAR;
use crate::run::Run;
use drive::modes::MODES;
use drive::plain::{shortest, Heard, Phase, Session};
use drive::ring;
use drive::scene::{is_robot, RATE};
use drive::search::{kept, placed, taken_at, COLUMNS};
use drive::tally::Tally;
use slowrx::modespec::access::spec;
use slowrx::sync::access::{best_pulse_window, sync_pulse_columns};
use slowrx::sync_start::access::{Placed, WIDE};

/// The classes of sessions.
#[must_use]
pub fn tally() -> Tally {
    let mut tally = Tally::new(
        "sessions",
        &[
            "unfound",
            "cut short",
            "F exactly w + P",
            "F exactly f + P: reported",
            "F exactly f + P - 1: cut short",
            "start found exactly at F: cut short",
            "anchor 0",
            "anchor 2^62",
            "anchor above 2^53",
            "anchor not a multiple of 4",
            "empty piece",
            "piece of 1",
            "piece of 63 or 65",
            "piece of 64",
            "all at once",
            "the end drops the rest of a piece",
            "a piece that ends the session with its last flag",
            "feed after the end, refused below 10",
            "two sessions over one list read the same but for the anchor",
            "report with a slant of 90",
            "report with another rate",
            "failed locate_start, streak kept, start found later",
            "streak broken and built again to a start",
            "start held at 0",
            "wide pulse",
            "wide pulse past column 699",
            "wide pulse, first line not line 0",
            "narrow pulse",
            "narrow pulse past column 699",
            "narrow pulse, first line not line 0",
            "narrow start that depends on one flag",
            "wide start that depends on one flag or two",
            "later tones, heard at once, would tell another parity",
            "a piece after which the record has a start with several windows",
            "reported with several windows of the largest sum",
            "cut short with several windows of the largest sum",
        ],
    );
    ring::announce_start(&mut tally, "");
    for name in ["Robot 24", "Robot 36"] {
        tally.announce(format!("odd first line, {name}"));
        tally.announce(format!("even first line, {name}"));
    }
    for mode in 0..MODES {
        tally.announce(format!("reported in mode {mode}"));
    }
    tally
}

/// A piece that was not refused.
pub fn note_piece(run: &mut Run, session: &Session, m: usize, took: usize) {
    let tally = &mut run.classes.session;
    let ended = session.ended();
    tally.note("empty piece", m == 0);
    tally.note("piece of 1", m == 1);
    tally.note("piece of 63 or 65", m == 63 || m == 65);
    tally.note("piece of 64", m == 64);
    let whole = took == session.taken && ended && took > 1_000;
    tally.note("all at once", whole);
    tally.note("the end drops the rest of a piece", took < m);
    let exact = took == m && ended;
    tally.note("a piece that ends the session with its last flag", exact);
    let several = session.phase == Phase::Collecting && session.windows() > 1;
    let name = "a piece after which the record has a start with several windows";
    tally.note(name, several);
}

/// A session that has ended.
pub fn note_end(run: &mut Run, session: &Session) {
    let tally = &mut run.classes.session;
    note_store(tally, session);
    let anchor = session.anchor;
    tally.note("anchor 0", anchor == 0);
    tally.note("anchor 2^62", anchor == FAR);
    tally.note("anchor above 2^53", anchor > 1 << 53 && anchor < FAR);
    tally.note("anchor not a multiple of 4", !anchor.is_multiple_of(4));
    let report = session
        .heard
        .report
        .filter(|_| session.phase == Phase::Reported);
    let straight = report.is_some_and(|r| r.slant == Some(90.0));
    tally.note("report with a slant of 90", straight);
    let leans = report.is_some_and(|r| r.rate != 11_025.0);
    tally.note("report with another rate", leans);
    if matches!(session.phase, Phase::Reported | Phase::CutShort) {
        note_search(tally, session.heard);
        note_start(tally, session.heard);
    }
}

/// The end and the store.
fn note_store(tally: &mut Tally, session: &Session) {
    let (mode, phase, f) = (session.heard.mode, session.phase, session.capacity);
    let reported = phase == Phase::Reported;
    let cut_short = phase == Phase::CutShort;
    tally.note(&format!("reported in mode {mode}"), reported);
    tally.note("unfound", phase == Phase::Unfound);
    tally.note("cut short", cut_short);
    tally.note("F exactly w + P", f == shortest(mode));
    let full = session.heard.full();
    let name = "F exactly f + P: reported";
    tally.note(name, reported && full == Some(f));
    let name = "F exactly f + P - 1: cut short";
    tally.note(name, cut_short && full == Some(f + 1));
    let found = session.heard.start.is_some_and(|(taken, _)| taken == f);
    let name = "start found exactly at F: cut short";
    tally.note(name, cut_short && found);
    let several = session.windows() > 1;
    let name = "reported with several windows of the largest sum";
    tally.note(name, reported && several);
    let name = "cut short with several windows of the largest sum";
    tally.note(name, cut_short && several);
}

/// The streaks before the start.
fn note_search(tally: &mut Tally, heard: &Heard) {
    let (mut failed, mut broken, mut built) = (false, false, false);
    for made in &heard.evaluations {
        broken |= built && made.streak == 0;
        built |= made.streak > 0;
        failed |= made.streak >= 3 && made.start.is_none();
    }
    let name = "failed locate_start, streak kept, start found later";
    tally.note(name, failed);
    tally.note("streak broken and built again to a start", broken);
}

/// Where the start was found.
fn note_start(tally: &mut Tally, heard: &Heard) {
    let Some((taken, found)) = heard.start else {
        return;
    };
    let mode = heard.mode;
    let j = (taken - taken_at(mode, 0)) / 64;
    let placed = placed(mode, &heard.sound, j, kept(j), 0);
    let (counts, width) = (placed.counts(), sync_pulse_columns(spec(mode), COLUMNS));
    ring::note_start(tally, "", mode, &counts);
    ring::note_streak(tally, "", mode, &heard.sound, j);
    let (column, _) = best_pulse_window(&counts, width);
    let Some(line) = placed.first_pulsed_line(column, width) else {
        return;
    };
    tally.note("start held at 0", found.position == 0);
    let kind = if width >= WIDE {
        "wide pulse"
    } else {
        "narrow pulse"
    };
    tally.note(kind, true);
    let past = column + width > COLUMNS;
    tally.note(&format!("{kind} past column 699"), past);
    tally.note(&format!("{kind}, first line not line 0"), line > 0);
    if is_robot(mode) {
        let pulse = (line as f64 + column as f64 / 700.0) * spec(mode).line_seconds;
        let odd = placed.first_line_is_odd((4 * 64 * j) as f64 + pulse * RATE);
        let name = if mode == 3 { "Robot 24" } else { "Robot 36" };
        let parity = if odd { "odd" } else { "even" };
        tally.note(&format!("{parity} first line, {name}"), true);
    }
}

/// A list made so that its start depends on a flag.
pub fn note_hanging(run: &mut Run, heard: &Heard) {
    let wide = sync_pulse_columns(spec(heard.mode), COLUMNS) >= WIDE;
    let name = if wide {
        "wide start that depends on one flag or two"
    } else {
        "narrow start that depends on one flag"
    };
    run.classes.session.note(name, heard.start.is_some());
}

/// Whether samples that come after the start was found would tell another
/// parity.
pub fn note_later_tones(run: &mut Run, heard: &Heard) {
    let Some((taken, found)) = heard.start else {
        return;
    };
    let j = (taken - taken_at(heard.mode, 0)) / 64;
    let (flags, all) = (&heard.sound.flags[..taken], &heard.sound.samples);
    let other = Placed::new(spec(heard.mode), flags, all, j, kept(j), 2).evaluate();
    let unlike = other.is_some_and(|other| other.position != found.position);
    let name = "later tones, heard at once, would tell another parity";
    run.classes.session.note(name, unlike);
}
