//! Recordings: calls and their answers as text, one to a line.
//!
//! A machine's answers are recorded once and made again on another machine.
//! The first line is `funnelivy recording 1` or `funnelivy recording 2`; after
//! it each line is empty, a comment that starts with `#`, or `CALL = ANSWER`.
//! Nothing is guessed: a line that is anything else is an [`Error`] with its
//! number. Version 2 has more calls, and answers with more fields; a line with one
//! that is not here yet is left out, and said to be.

pub mod commands;
mod list;
mod parse;
mod run;

pub use list::{
    read_bytes, read_floats, read_numbers, write_bytes, write_floats, write_numbers, Source,
    MOST_ELEMENTS,
};
pub use parse::{parse, Entry, RecordedAnswer, Recording};
pub use run::{record, replay, Machine, Outcome, Recorded};

use std::fmt;

/// The first line of a recording of version 1.
pub const HEADER: &str = "funnelivy recording 1";

/// Which calls a recording may have.
#[derive(Clone, Copy, Debug, PartialEq, Eq, PartialOrd, Ord)]
pub enum Version {
    /// Those of document 01.
    One,
    /// Those of document 02 too.
    Two,
}

impl Version {
    /// The first line of a recording of this version.
    #[must_use]
    pub fn header(self) -> &'static str {
        match self {
            Self::One => HEADER,
            Self::Two => "funnelivy recording 2",
        }
    }

    /// The newest form that answers of this version have. They are written in it.
    #[must_use]
    pub fn form(self) -> Form {
        match self {
            Self::One => Form::First,
            Self::Two => Form::NEWEST,
        }
    }
}

/// Which fields an answer has. Changes added some, and a recording that was
/// written before a change lacks them.
#[derive(Clone, Copy, Debug, PartialEq, Eq, PartialOrd, Ord)]
pub enum Form {
    /// Those of document 01.
    First,
    /// Also how many windows have the largest sum (document 02, A.3).
    Windows,
}

impl Form {
    /// The form with every field.
    pub const NEWEST: Self = Self::Windows;

    /// The word of a count of windows with a space before it, where this form has
    /// that word.
    fn windows(self, count: u64) -> String {
        if self >= Self::Windows {
            format!(" {count}")
        } else {
            String::new()
        }
    }
}

/// A length of lent memory: a number, or `*`, the length that is asked for.
#[derive(Clone, Copy, Debug, PartialEq, Eq)]
pub enum Length {
    /// This many places.
    Exactly(u64),
    /// As many as the call asks for; at feed, as many as open was given.
    AsAsked,
}

impl Length {
    /// The number, where `asked` is what `*` stands for.
    #[must_use]
    pub fn or(self, asked: u64) -> u64 {
        match self {
            Self::Exactly(n) => n,
            Self::AsAsked => asked,
        }
    }
}

impl fmt::Display for Length {
    fn fmt(&self, f: &mut fmt::Formatter<'_>) -> fmt::Result {
        match self {
            Self::Exactly(n) => write!(f, "{n}"),
            Self::AsAsked => f.write_str("*"),
        }
    }
}

/// One call with its arguments.
#[derive(Clone, Debug, PartialEq)]
pub enum Call {
    /// `sync_pulse_columns`.
    Columns { mode: u64, n: u64 },
    /// `best_pulse_window`.
    Window { width: u64, counts: Vec<u32> },
    /// `sync_quality`.
    Quality {
        mode: u64,
        lines: u64,
        counts: Vec<u32>,
    },
    /// `falling_edge_from_x_acc`.
    Edge { counts: Vec<u32> },
    /// `find_sync`.
    Find {
        mode: u64,
        rate: f64,
        img: Length,
        votes: Length,
        flags: Vec<u8>,
    },
    /// The spectrum window.
    Fill {
        centre: u64,
        buffer: Length,
        sound: Vec<f32>,
    },
    /// `has_sync_at` on a spectrum.
    Probe { shift: f64, spectrum: Vec<f32> },
    /// Opens a new session.
    Open {
        mode: u64,
        anchor: u64,
        flag_store: Length,
        sample_store: Length,
        samples: Vec<f32>,
    },
    /// Feeds the session opened last.
    Feed {
        flag_store: Length,
        sample_store: Length,
        img: Length,
        votes: Length,
        flags: Vec<u8>,
        samples: Vec<f32>,
    },
    /// Reads the session opened last.
    Read,
    /// Writes a card into a buffer. `card1` in text.
    WriteCard { buffer: Length, card: CardFields },
    /// Reads a card's bytes. `uncard` in text.
    ReadCard { bytes: Vec<u8> },
    /// The card of the session opened last. `cardof` in text.
    SessionCard,
    /// A call of version 2 that is not here yet, or has an answer that is not.
    Later {
        text: String,
        /// What is not here, in words.
        missing: String,
        /// Whether the session opened last is another one after it, or stands
        /// elsewhere.
        session: bool,
    },
}

impl Call {
    /// Whether it is a call on the session opened last.
    #[must_use]
    pub fn is_on_session(&self) -> bool {
        matches!(self, Self::Feed { .. } | Self::Read | Self::SessionCard)
    }
}

/// The fields of a card in the order of its bytes, floats as bits, so that a NaN
/// and a zero's sign can be written.
#[derive(Clone, Copy, Debug, PartialEq, Eq)]
pub struct CardFields {
    pub mode: u8,
    /// 0 reported, 1 unfound, 2 cut short.
    pub end: u8,
    pub taken: u64,
    pub evaluations: u64,
    pub start: u64,
    /// An f32.
    pub start_quality: u32,
    /// An f64.
    pub rate: u64,
    /// The slant index, 255 for none.
    pub slant: u8,
    pub skip: i64,
    /// An f32.
    pub quality: u32,
}

/// What the first P flags of a picture give.
#[derive(Clone, Copy, Debug, PartialEq)]
pub struct Report {
    /// The true sampling rate in Hz.
    pub rate: f64,
    /// The slant in degrees, where one was found.
    pub slant: Option<f64>,
    /// Samples from the start to the first line; may be negative.
    pub skip: i64,
    /// How clearly the sync pulses stand out, 0 to 1.
    pub quality: f32,
}

/// How a session ended.
#[derive(Clone, Copy, Debug, PartialEq)]
pub enum End {
    /// A picture was found and its flags are all there.
    Reported {
        start: u64,
        /// How many windows have the largest sum, at the evaluation that found
        /// the start; 1 unless several windows tie.
        windows: u64,
        start_quality: f32,
        report: Report,
    },
    /// The store is full and no picture was found.
    Unfound,
    /// The store is full before the picture's last flag.
    CutShort {
        start: u64,
        /// As in a report.
        windows: u64,
        start_quality: f32,
    },
}

/// The answer to a call.
#[derive(Clone, Debug, PartialEq)]
pub enum Answer {
    Refused(u64),
    Count(u64),
    Window {
        start: u64,
        sum: u64,
        /// How many windows have that sum.
        windows: u64,
    },
    Quality(f32),
    Column(u64),
    Found(Report),
    Filled(Vec<f32>),
    Decided(bool),
    Opened,
    Took(u64),
    Read {
        end: End,
        taken: u64,
        evaluations: u64,
    },
    Bytes(Vec<u8>),
    Card(CardFields),
}

fn f64_bits(x: f64) -> String {
    format!("{:016x}", x.to_bits())
}

fn f32_bits(x: f32) -> String {
    format!("{:08x}", x.to_bits())
}

impl fmt::Display for Report {
    fn fmt(&self, f: &mut fmt::Formatter<'_>) -> fmt::Result {
        let slant = self.slant.map_or_else(|| "none".to_owned(), f64_bits);
        write!(
            f,
            "{} {slant} {} {}",
            f64_bits(self.rate),
            self.skip,
            f32_bits(self.quality)
        )
    }
}

impl fmt::Display for CardFields {
    fn fmt(&self, f: &mut fmt::Formatter<'_>) -> fmt::Result {
        write!(
            f,
            "{} {} {} {} {} {:08x} {:016x} {} {} {:08x}",
            self.mode,
            self.end,
            self.taken,
            self.evaluations,
            self.start,
            self.start_quality,
            self.rate,
            self.slant,
            self.skip,
            self.quality
        )
    }
}

impl Answer {
    /// The answer with the fields of a form.
    #[must_use]
    pub fn text(&self, form: Form) -> String {
        match self {
            Self::Refused(k) => format!("refused {k}"),
            Self::Count(n) | Self::Column(n) => n.to_string(),
            Self::Window {
                start,
                sum,
                windows,
            } => format!("{start} {sum}{}", form.windows(*windows)),
            Self::Quality(q) => f32_bits(*q),
            Self::Found(report) => report.to_string(),
            Self::Filled(values) => write_floats(values),
            Self::Decided(yes) => (if *yes { "yes" } else { "no" }).to_owned(),
            Self::Opened => "opened".to_owned(),
            Self::Took(n) => format!("took {n}"),
            Self::Read {
                end,
                taken,
                evaluations,
            } => match end {
                End::Reported {
                    start,
                    windows,
                    start_quality,
                    report,
                } => format!(
                    "reported {taken} {evaluations} {start}{} {} {report}",
                    form.windows(*windows),
                    f32_bits(*start_quality)
                ),
                End::Unfound => format!("unfound {taken} {evaluations}"),
                End::CutShort {
                    start,
                    windows,
                    start_quality,
                } => format!(
                    "cutshort {taken} {evaluations} {start}{} {}",
                    form.windows(*windows),
                    f32_bits(*start_quality)
                ),
            },
            Self::Bytes(bytes) => write_bytes(bytes),
            Self::Card(card) => card.to_string(),
        }
    }
}

/// In the newest form.
impl fmt::Display for Answer {
    fn fmt(&self, f: &mut fmt::Formatter<'_>) -> fmt::Result {
        f.write_str(&self.text(Form::NEWEST))
    }
}

impl fmt::Display for Call {
    fn fmt(&self, f: &mut fmt::Formatter<'_>) -> fmt::Result {
        match self {
            Self::Columns { mode, n } => write!(f, "columns {mode} {n}"),
            Self::Window { width, counts } => write!(f, "window {width} {}", write_numbers(counts)),
            Self::Quality {
                mode,
                lines,
                counts,
            } => write!(f, "quality {mode} {lines} {}", write_numbers(counts)),
            Self::Edge { counts } => write!(f, "edge {}", write_numbers(counts)),
            Self::Find {
                mode,
                rate,
                img,
                votes,
                flags,
            } => write!(
                f,
                "find {mode} {} {img} {votes} {}",
                f64_bits(*rate),
                write_numbers(flags)
            ),
            Self::Fill {
                centre,
                buffer,
                sound,
            } => write!(f, "fill {centre} {buffer} {}", write_floats(sound)),
            Self::Probe { shift, spectrum } => {
                write!(f, "probe {} {}", f64_bits(*shift), write_floats(spectrum))
            }
            Self::Open {
                mode,
                anchor,
                flag_store,
                sample_store,
                samples,
            } => write!(
                f,
                "open {mode} {anchor} {flag_store} {sample_store} {}",
                write_floats(samples)
            ),
            Self::Feed {
                flag_store,
                sample_store,
                img,
                votes,
                flags,
                samples,
            } => write!(
                f,
                "feed {flag_store} {sample_store} {img} {votes} {} {}",
                write_numbers(flags),
                write_floats(samples)
            ),
            Self::Read => f.write_str("read"),
            Self::WriteCard { buffer, card } => write!(f, "card1 {buffer} {card}"),
            Self::ReadCard { bytes } => write!(f, "uncard {}", write_bytes(bytes)),
            Self::SessionCard => f.write_str("cardof"),
            Self::Later { text, .. } => f.write_str(text),
        }
    }
}

/// A line that is no part of a recording, or a file that could not be read.
#[derive(Clone, Debug, PartialEq, Eq)]
pub struct Error {
    /// The line's number, from 1.
    pub line: usize,
    /// What was expected there.
    pub expected: String,
}

impl fmt::Display for Error {
    fn fmt(&self, f: &mut fmt::Formatter<'_>) -> fmt::Result {
        write!(f, "line {}: expected {}", self.line, self.expected)
    }
}

impl std::error::Error for Error {}
