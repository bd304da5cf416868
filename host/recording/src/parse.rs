//! The text of a recording, line by line.

use crate::list::{bits, decimal};
use crate::{
    read_bytes, read_floats, read_numbers, Answer, Call, CardFields, End, Error, Form, Length,
    Report, Source, Version,
};

/// The calls of version 2 that are not here yet, and whether the session opened
/// last is another one after them, or stands elsewhere.
const LATER: [(&str, bool); 13] = [
    ("store", true),
    ("judge", true),
    ("pack", false),
    ("unpack", false),
    ("openring", true),
    ("gauge", false),
    ("holes", false),
    ("openall", true),
    ("checkcard", false),
    ("card2", false),
    ("cardof2", false),
    ("to2", false),
    ("to1", false),
];

/// A call and, where the line has one, its answer.
#[derive(Clone, Debug, PartialEq)]
pub struct Entry {
    /// The line's number, from 1.
    pub line: usize,
    pub call: Call,
    pub answer: Option<RecordedAnswer>,
}

/// An answer with the form that its line has. A field that the form lacks is 0.
#[derive(Clone, Debug, PartialEq)]
pub struct RecordedAnswer {
    pub answer: Answer,
    pub form: Form,
}

/// The calls of a recording in order.
#[derive(Clone, Debug, PartialEq)]
pub struct Recording {
    pub version: Version,
    pub entries: Vec<Entry>,
}

/// The version that a first line says.
fn version(line: &str) -> Result<Version, String> {
    let all = [Version::One, Version::Two];
    let said = all.into_iter().find(|v| v.header() == line);
    said.ok_or_else(|| all.map(|v| format!("`{}`", v.header())).join(" or "))
}

/// Reads a recording. With `answers` each call must have one.
///
/// # Errors
/// The first line that is no part of a recording.
pub fn parse(text: &str, source: Source<'_>, answers: bool) -> Result<Recording, Error> {
    let at = |line: usize| {
        move |expected: String| Error {
            line: line + 1,
            expected,
        }
    };
    let mut lines = text.lines().enumerate();
    let version = version(lines.next().map_or("", |(_, line)| line)).map_err(at(0))?;
    let mut entries = Vec::new();
    for (number, line) in lines {
        if line.is_empty() || line.starts_with('#') {
            continue;
        }
        let (call, answer) = match line.split_once(" = ") {
            Some((call, answer)) => (call, Some(answer)),
            None if answers => return Err(at(number)("`CALL = ANSWER`".to_owned())),
            None => (line, None),
        };
        let second = version == Version::Two;
        let unknown = answer.and_then(|a| later_answer(call, a).filter(|_| second));
        // Where answers are to be made, one of another form is as none.
        let answer = answer.filter(|_| answers || unknown.is_none());
        let later = later_call(call, answer)
            .filter(|_| second)
            .or(unknown.filter(|_| answers));
        let (call, answer) = if let Some(call) = later {
            (call, None)
        } else {
            let call = parse_call(version, call, source).map_err(at(number))?;
            let answer = answer
                .map(|a| parse_answer(version, &call, a, source))
                .transpose()
                .map_err(at(number))?;
            (call, answer)
        };
        entries.push(Entry {
            line: number + 1,
            call,
            answer,
        });
    }
    Ok(Recording { version, entries })
}

/// A call that is not here yet. A refused one changes no session.
fn later_call(text: &str, answer: Option<&str>) -> Option<Call> {
    let word = text.split(' ').next()?;
    let (_, changes) = LATER.iter().find(|(name, _)| *name == word)?;
    let refused = answer.is_some_and(|a| a.starts_with("refused "));
    Some(Call::Later {
        text: text.to_owned(),
        missing: format!("`{word}`"),
        session: *changes && !refused,
    })
}

/// A call whose answer has the fields of a change that is not here yet: an
/// origin, a mode, or what 66 bytes of a card hold.
fn later_answer(text: &str, answer: &str) -> Option<Call> {
    let (call, fields): (Vec<&str>, Vec<&str>) =
        (text.split(' ').collect(), answer.split(' ').collect());
    let more = match (&call[..], &fields[..]) {
        (["read"], ["reported" | "cutshort", "mode", ..]) => true,
        // The origin, and in a report the card's skip too.
        (["read"], ["reported", values @ ..]) => values.len() == 11,
        (["read"], ["cutshort", values @ ..]) => values.len() == 6,
        (["uncard", bytes], _) => bytes.len() == 2 * 66 && answer != "refused 12",
        _ => false,
    };
    more.then(|| Call::Later {
        text: text.to_owned(),
        missing: format!("such an answer of `{}`", call[0]),
        session: false,
    })
}

fn number(text: &str) -> Result<u64, String> {
    decimal(text).ok_or_else(|| format!("a decimal number instead of `{text}`"))
}

fn byte(text: &str) -> Result<u8, String> {
    decimal(text).ok_or_else(|| format!("a decimal number up to 255 instead of `{text}`"))
}

fn signed(text: &str) -> Result<i64, String> {
    let digits = text.strip_prefix('-').unwrap_or(text);
    let plain = decimal::<u64>(digits).and_then(|_| text.parse().ok());
    plain.ok_or_else(|| format!("a whole number instead of `{text}`"))
}

fn length(text: &str) -> Result<Length, String> {
    if text == "*" {
        return Ok(Length::AsAsked);
    }
    decimal(text)
        .map(Length::Exactly)
        .ok_or_else(|| format!("a length or `*` instead of `{text}`"))
}

fn double(text: &str) -> Result<f64, String> {
    bits(text, 16)
        .map(f64::from_bits)
        .ok_or_else(|| format!("the 16 hexadecimal digits of an f64 instead of `{text}`"))
}

fn single(text: &str) -> Result<f32, String> {
    bits(text, 8)
        .and_then(|b| u32::try_from(b).ok())
        .map(f32::from_bits)
        .ok_or_else(|| format!("the 8 hexadecimal digits of an f32 instead of `{text}`"))
}

fn card(words: &[&str]) -> Result<CardFields, String> {
    let [mode, end, taken, evaluations, start, start_quality, rate, slant, skip, quality] = words
    else {
        let words = words.join(" ");
        return Err(format!("the ten fields of a card instead of `{words}`"));
    };
    Ok(CardFields {
        mode: byte(mode)?,
        end: byte(end)?,
        taken: number(taken)?,
        evaluations: number(evaluations)?,
        start: number(start)?,
        start_quality: single(start_quality)?.to_bits(),
        rate: double(rate)?.to_bits(),
        slant: byte(slant)?,
        skip: signed(skip)?,
        quality: single(quality)?.to_bits(),
    })
}

/// A call of document 02.
fn parse_second(words: &[&str]) -> Result<Option<Call>, String> {
    Ok(Some(match words {
        ["card1", buffer, fields @ ..] => Call::WriteCard {
            buffer: length(buffer)?,
            card: card(fields)?,
        },
        ["uncard", bytes] => Call::ReadCard {
            bytes: read_bytes(bytes)?,
        },
        ["cardof"] => Call::SessionCard,
        _ => return Ok(None),
    }))
}

fn parse_call(version: Version, text: &str, source: Source<'_>) -> Result<Call, String> {
    let words: Vec<&str> = text.split(' ').collect();
    if version == Version::Two {
        if let Some(call) = parse_second(&words)? {
            return Ok(call);
        }
    }
    Ok(match words[..] {
        ["columns", mode, n] => Call::Columns {
            mode: number(mode)?,
            n: number(n)?,
        },
        ["window", width, counts] => Call::Window {
            width: number(width)?,
            counts: read_numbers(counts, source)?,
        },
        ["quality", mode, lines, counts] => Call::Quality {
            mode: number(mode)?,
            lines: number(lines)?,
            counts: read_numbers(counts, source)?,
        },
        ["edge", counts] => Call::Edge {
            counts: read_numbers(counts, source)?,
        },
        ["find", mode, rate, img, votes, flags] => Call::Find {
            mode: number(mode)?,
            rate: double(rate)?,
            img: length(img)?,
            votes: length(votes)?,
            flags: read_numbers(flags, source)?,
        },
        ["fill", centre, buffer, sound] => Call::Fill {
            centre: number(centre)?,
            buffer: length(buffer)?,
            sound: read_floats(sound, source)?,
        },
        ["probe", shift, spectrum] => Call::Probe {
            shift: double(shift)?,
            spectrum: read_floats(spectrum, source)?,
        },
        ["open", mode, anchor, flag_store, sample_store, samples] => Call::Open {
            mode: number(mode)?,
            anchor: number(anchor)?,
            flag_store: length(flag_store)?,
            sample_store: length(sample_store)?,
            samples: read_floats(samples, source)?,
        },
        ["feed", flag_store, sample_store, img, votes, flags, samples] => Call::Feed {
            flag_store: length(flag_store)?,
            sample_store: length(sample_store)?,
            img: length(img)?,
            votes: length(votes)?,
            flags: read_numbers(flags, source)?,
            samples: read_floats(samples, source)?,
        },
        ["read"] => Call::Read,
        _ => {
            let more = match version {
                Version::One => "feed or read",
                Version::Two => "feed, read, card1, uncard or cardof",
            };
            return Err(format!(
                "a call (columns, window, quality, edge, find, fill, probe, open, {more}) \
                 with its arguments instead of `{}`",
                words[0]
            ));
        }
    })
}

/// The words where a form may have a count of windows: that count, or 0, and the
/// form. `None` for words that no form of this version has there.
fn windows_and_form(version: Version, words: &[&str]) -> Result<Option<(u64, Form)>, String> {
    Ok(match words {
        [] => Some((0, Form::First)),
        [count] if version.form() >= Form::Windows => Some((number(count)?, Form::Windows)),
        _ => None,
    })
}

fn parse_answer(
    version: Version,
    call: &Call,
    text: &str,
    source: Source<'_>,
) -> Result<RecordedAnswer, String> {
    let words: Vec<&str> = text.split(' ').collect();
    let other = || format!("an answer to this call, or `refused K`, instead of `{text}`");
    let mut form = version.form();
    let answer = match (call, &words[..]) {
        (_, ["refused", k]) => Answer::Refused(number(k)?),
        (Call::Columns { .. }, [n]) => Answer::Count(number(n)?),
        (Call::Window { .. }, [start, sum, more @ ..]) => {
            let (windows, with) = windows_and_form(version, more)?.ok_or_else(other)?;
            form = with;
            Answer::Window {
                start: number(start)?,
                sum: number(sum)?,
                windows,
            }
        }
        (Call::Quality { .. }, [q]) => Answer::Quality(single(q)?),
        (Call::Edge { .. }, [n]) => Answer::Column(number(n)?),
        (Call::Find { .. }, [rate, slant, skip, quality]) => {
            Answer::Found(report(rate, slant, skip, quality)?)
        }
        (Call::Fill { .. }, [values]) => Answer::Filled(read_floats(values, source)?),
        (Call::Probe { .. }, ["yes"]) => Answer::Decided(true),
        (Call::Probe { .. }, ["no"]) => Answer::Decided(false),
        (Call::Open { .. }, ["opened"]) => Answer::Opened,
        (Call::Feed { .. }, ["took", n]) => Answer::Took(number(n)?),
        (Call::Read, [end, taken, evaluations, rest @ ..]) => {
            let (end, with) = parse_end(version, end, rest)?;
            form = with;
            Answer::Read {
                end,
                taken: number(taken)?,
                evaluations: number(evaluations)?,
            }
        }
        (Call::WriteCard { .. }, [bytes]) => Answer::Bytes(read_bytes(bytes)?),
        (Call::ReadCard { .. } | Call::SessionCard, fields) => Answer::Card(card(fields)?),
        _ => return Err(other()),
    };
    Ok(RecordedAnswer { answer, form })
}

fn report(rate: &str, slant: &str, skip: &str, quality: &str) -> Result<Report, String> {
    Ok(Report {
        rate: double(rate)?,
        slant: if slant == "none" {
            None
        } else {
            Some(double(slant)?)
        },
        skip: signed(skip)?,
        quality: single(quality)?,
    })
}

fn parse_end(version: Version, end: &str, rest: &[&str]) -> Result<(End, Form), String> {
    let other =
        || format!("`reported`, `unfound` or `cutshort` with its values instead of `{end}`");
    Ok(match (end, rest) {
        ("reported", [start, more @ .., start_quality, rate, slant, skip, quality]) => {
            let (windows, form) = windows_and_form(version, more)?.ok_or_else(other)?;
            let end = End::Reported {
                start: number(start)?,
                windows,
                start_quality: single(start_quality)?,
                report: report(rate, slant, skip, quality)?,
            };
            (end, form)
        }
        ("unfound", []) => (End::Unfound, version.form()),
        ("cutshort", [start, more @ .., start_quality]) => {
            let (windows, form) = windows_and_form(version, more)?.ok_or_else(other)?;
            let end = End::CutShort {
                start: number(start)?,
                windows,
                start_quality: single(start_quality)?,
            };
            (end, form)
        }
        _ => return Err(other()),
    })
}
