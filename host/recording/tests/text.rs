//! The text of recordings: what is read is written back, and what is no part
//! of a recording is refused with its line's number.

use recording::{
    parse, record, replay, Answer, Call, CardFields, End, Error, Form, Length, Machine, Outcome,
    RecordedAnswer, Recording, Report, Source, Version, HEADER, MOST_ELEMENTS,
};
use std::path::Path;

/// Lines that are the same in both versions.
const LINES: &str = "\
columns 0 700 = 28
columns 16 700 = refused 1
window 5 4*5 = refused 9
quality 4 240 700*0 = 00000000
edge 349*0,1,350*0 = 350
find 0 40c5888000000000 * * 100*0,5*1 = 40c5888000000000 none -221 00000000
find 0 40c5888000000000 5 * - = refused 5
fill 8 * 3f800000 = 512*00000000
probe 0000000000000000 258*00000000 = no
open 9 4611686018427387904 * * 4*00000000 = opened
feed * * * * 64*0 256*00000000 = took 64
read = refused 11
read = unfound 9447 1
";

/// Lines whose answers have a count of windows since document 02, A.3: before it
/// and with it.
const FIRST: &str = "\
window 2 5,2*1,5 = 3 10
read = reported 5 1 7 3f800000 40c5888000000000 4056800000000000 -1 3f000000
read = cutshort 9447 3 1 3f800000
";
const WINDOWS: &str = "\
window 2 5,2*1,5 = 3 10 1
read = reported 5 1 7 700 3f800000 40c5888000000000 4056800000000000 -1 3f000000
read = cutshort 9447 3 1 2 3f800000
";

/// What a machine says to the three of them.
fn counted() -> [Answer; 3] {
    let reported = End::Reported {
        start: 7,
        windows: 700,
        start_quality: 1.0,
        report: Report {
            rate: 11_025.0,
            slant: Some(90.0),
            skip: -1,
            quality: 0.5,
        },
    };
    let cut_short = End::CutShort {
        start: 1,
        windows: 2,
        start_quality: 1.0,
    };
    [
        Answer::Window {
            start: 3,
            sum: 10,
            windows: 1,
        },
        Answer::Read {
            end: reported,
            taken: 5,
            evaluations: 1,
        },
        Answer::Read {
            end: cut_short,
            taken: 9_447,
            evaluations: 3,
        },
    ]
}

fn here() -> Source<'static> {
    Source {
        folder: Path::new("."),
    }
}

fn text(lines: &str) -> String {
    format!("{HEADER}\n{lines}")
}

fn second(lines: &str) -> String {
    format!("{}\n{lines}", Version::Two.header())
}

/// Answers from a list.
struct Told(Vec<Option<Answer>>);

impl Told {
    /// What a recording has.
    fn by(recording: &Recording) -> Self {
        let recorded = recording.entries.iter().map(|e| e.answer.as_ref());
        Self(recorded.map(|r| r.map(|r| r.answer.clone())).collect())
    }
}

impl Machine for Told {
    fn make(&mut self, _: &Call) -> Option<Answer> {
        self.0.remove(0)
    }
}

/// Whether a machine that says what was read writes the same text.
fn is_written_back(text: &str) {
    let recording = parse(text, here(), true).unwrap();
    let written = record(&recording, &mut Told::by(&recording));
    assert_eq!(written.text, text);
    assert_eq!((written.left_out, written.notes), (0, Vec::new()));
}

#[test]
fn what_is_read_is_written_back() {
    is_written_back(&text(&format!("{LINES}{FIRST}")));
}

/// The lines that version 2 has beside those of version 1.
const CARDS: &str = "\
card1 * 4 0 22588 3 1843 3f400000 40c5888000000000 120 -158 3f000000 = 5353520100
card1 57 255 3 18446744073709551615 0 0 7fc00001 fff0000000000001 254 -9223372036854775808 80000000 = refused 12
uncard - = refused 12
uncard 00ff5a = 9 1 311712 4723 0 00000000 0000000000000000 255 0 00000000
cardof = refused 11
cardof = 15 2 1 2 3 ffffffff ffffffffffffffff 0 9223372036854775807 00000001
";

#[test]
fn a_recording_of_version_2_is_written_back_as_one() {
    let lines = second(&format!("{LINES}{WINDOWS}{CARDS}"));
    let version = parse(&lines, here(), true).unwrap().version;
    assert_eq!(version, Version::Two);
    is_written_back(&lines);
}

/// The answers of a recording, each with its form.
fn answers(text: &str) -> Vec<RecordedAnswer> {
    let entries = parse(text, here(), true).unwrap().entries;
    entries.into_iter().map(|e| e.answer.unwrap()).collect()
}

#[test]
fn the_form_of_an_answer_is_told_by_its_words() {
    let with = |form| counted().map(|answer| RecordedAnswer { answer, form });
    assert_eq!(answers(&second(WINDOWS)), with(Form::Windows));
    for before in [text(FIRST), second(FIRST)] {
        let mut due = with(Form::First);
        for recorded in &mut due {
            *windows_of(&mut recorded.answer) = 0;
        }
        assert_eq!(answers(&before), due);
    }
    // An answer that is the same in each form has that of its version.
    let all = |text: &str, form| answers(text).iter().all(|recorded| recorded.form == form);
    assert!(all(&text(LINES), Form::First) && all(&second(LINES), Form::NEWEST));
}

/// The count of an answer that has one.
fn windows_of(answer: &mut Answer) -> &mut u64 {
    match answer {
        Answer::Window { windows, .. }
        | Answer::Read {
            end: End::Reported { windows, .. } | End::CutShort { windows, .. },
            ..
        } => windows,
        _ => panic!("an answer without a count"),
    }
}

/// A line's call and answer.
fn parts(line: &str) -> (&str, &str) {
    line.split_once(" = ").unwrap()
}

#[test]
fn an_answer_is_written_with_the_fields_of_a_form() {
    for ((answer, first), windows) in counted().iter().zip(FIRST.lines()).zip(WINDOWS.lines()) {
        assert_eq!(answer.text(Form::First), parts(first).1);
        assert_eq!(answer.text(Form::Windows), parts(windows).1);
        assert_eq!(answer.to_string(), answer.text(Form::NEWEST));
    }
    let unfound = Answer::Read {
        end: End::Unfound,
        taken: 5,
        evaluations: 6,
    };
    for form in [Form::First, Form::NEWEST] {
        assert_eq!(unfound.text(form), "unfound 5 6");
        assert_eq!(Answer::Refused(9).text(form), "refused 9");
    }
}

/// Three lines replayed on a machine that says [`counted`], changed.
fn replayed(text: &str, change: impl FnOnce(&mut [Answer; 3])) -> Outcome {
    let mut answers = counted();
    change(&mut answers);
    let recording = parse(text, here(), true).unwrap();
    replay("a", &recording, &mut Told(answers.map(Some).into()))
}

#[test]
fn a_line_is_compared_in_the_fields_that_it_has() {
    let all = |text: &str| {
        let outcome = replayed(text, |_| {});
        assert_eq!(outcome.differences, Vec::<String>::new());
        assert_eq!((outcome.passed, outcome.left_out), (3, 0));
    };
    all(&second(WINDOWS));
    for before in [text(FIRST), second(FIRST)] {
        all(&before);
        for count in [0, 1, u64::MAX] {
            let outcome = replayed(&before, |answers| {
                for answer in answers {
                    *windows_of(answer) = count;
                }
            });
            assert_eq!((outcome.passed, outcome.failed), (3, 0), "{count}");
        }
    }
}

#[test]
fn another_count_of_windows_is_a_difference_where_the_line_has_one() {
    for (at, told) in [
        "a:2: recorded 3 10 1, got 3 10 2",
        "a:3: recorded reported 5 1 7 700 3f800000 40c5888000000000 4056800000000000 -1 3f000000, \
         got reported 5 1 7 701 3f800000 40c5888000000000 4056800000000000 -1 3f000000",
        "a:4: recorded cutshort 9447 3 1 2 3f800000, got cutshort 9447 3 1 3 3f800000",
    ]
    .into_iter()
    .enumerate()
    {
        let outcome = replayed(&second(WINDOWS), |all| *windows_of(&mut all[at]) += 1);
        assert_eq!(outcome.differences, [told]);
        assert_eq!((outcome.passed, outcome.failed), (2, 1));
    }
}

/// A word with another last digit, which a number and a float's bits may have.
fn another(word: &str) -> Option<String> {
    let (last, rest) = word.as_bytes().split_last()?;
    let digit = if *last == b'1' { '2' } else { '1' };
    let rest = std::str::from_utf8(rest).ok()?;
    last.is_ascii_digit().then(|| format!("{rest}{digit}"))
}

#[test]
fn every_field_that_a_line_has_is_compared() {
    for (lines, fields) in [
        (text(FIRST), 2 + 8 + 4),
        (second(FIRST), 2 + 8 + 4),
        (second(WINDOWS), 3 + 9 + 5),
    ] {
        let mut compared = 0;
        for line in lines.lines().skip(1) {
            let (call, answer) = parts(line);
            let words: Vec<&str> = answer.split(' ').collect();
            for (at, word) in words.iter().enumerate() {
                let Some(other) = another(word) else { continue };
                let mut words = words.clone();
                words[at] = &other;
                let changed = format!("{call} = {}", words.join(" "));
                let outcome = replayed(&lines.replace(line, &changed), |_| {});
                assert_eq!((outcome.passed, outcome.failed), (2, 1), "{changed}");
                compared += 1;
            }
        }
        assert_eq!(compared, fields);
    }
}

#[test]
fn a_difference_is_told_in_the_form_of_its_line() {
    let lines = text("window 2 5,2*1,5 = 4 10\nread = refused 9\nread = unfound 5 1\n");
    let outcome = replayed(&lines, |_| {});
    let told = [
        "a:2: recorded 4 10, got 3 10",
        "a:3: recorded refused 9, \
         got reported 5 1 7 3f800000 40c5888000000000 4056800000000000 -1 3f000000",
        "a:4: recorded unfound 5 1, got cutshort 9447 3 1 3f800000",
    ];
    assert_eq!(outcome.differences, told);
    let outcome = replayed(&lines.replace(HEADER, Version::Two.header()), |_| {});
    assert_eq!(outcome.differences[0], told[0]);
    assert!(outcome.differences[1].contains(", got reported 5 1 7 700 3f800000 "));
    assert!(outcome.differences[2].ends_with(", got cutshort 9447 3 1 2 3f800000"));
}

#[test]
fn a_recording_is_written_in_the_newest_form_of_its_version() {
    let calls = FIRST.lines().map(|line| parts(line).0.to_owned() + "\n");
    let calls: String = calls.collect();
    let written = |text: &str| {
        let recording = parse(text, here(), false).unwrap();
        record(&recording, &mut Told(counted().map(Some).into())).text
    };
    for lines in [FIRST, &calls] {
        assert_eq!(written(&text(lines)), text(FIRST));
    }
    for lines in [FIRST, WINDOWS, &calls] {
        assert_eq!(written(&second(lines)), second(WINDOWS));
    }
}

#[test]
fn answers_of_no_form_of_their_version() {
    let window = |words: &str| {
        let line = format!("window 2 5,2*1,5 = {words}\n");
        let expected = format!("an answer to this call, or `refused K`, instead of `{words}`");
        (line, expected)
    };
    let read = |end: &str, words: &str| {
        let line = format!("read = {end} 5 1 {words}\n");
        let expected =
            format!("`reported`, `unfound` or `cutshort` with its values instead of `{end}`");
        (line, expected)
    };
    let report = "3f800000 40c5888000000000 none 0";
    let both = [
        window("3"),
        window("3 10 1 1"),
        read("reported", &format!("{report} 3f800000")),
        read("reported", &format!("7 1 2 {report} 3f800000")),
        read("cutshort", "7"),
        read("unfound", "0"),
    ];
    let first = [
        window("3 10 1"),
        read("reported", &format!("7 1 {report} 3f800000")),
        read("reported", &format!("7 1 2 {report} 0 3f800000")),
        read("cutshort", "7 1 3f800000"),
        read("cutshort", "7 1 2 3f800000"),
    ];
    let error = |text: &str| parse(text, here(), true).unwrap_err();
    for (line, expected) in both.iter().chain(&first) {
        let due = Error {
            line: 2,
            expected: expected.clone(),
        };
        assert_eq!(error(&text(line)), due, "{line}");
    }
    for (line, expected) in both {
        assert_eq!(error(&second(&line)), Error { line: 2, expected });
    }
    for (line, _) in first {
        assert!(parse(&second(&line), here(), true).is_ok(), "{line}");
    }
    for (line, word) in [
        ("window 1 5 = 0 5 -1", "-1"),
        ("window 1 5 = 0 5 ", ""),
        (
            "read = cutshort 5 1 7 18446744073709551616 3f800000",
            "18446744073709551616",
        ),
    ] {
        let expected = format!("a decimal number instead of `{word}`");
        assert_eq!(error(&second(line)), Error { line: 2, expected });
    }
}

#[test]
fn the_words_of_a_card() {
    let recording = parse(&second(CARDS), here(), true).unwrap();
    let card = CardFields {
        mode: 4,
        end: 0,
        taken: 22_588,
        evaluations: 3,
        start: 1_843,
        start_quality: 0x3f40_0000,
        rate: 0x40c5_8880_0000_0000,
        slant: 120,
        skip: -158,
        quality: 0x3f00_0000,
    };
    let buffer = Length::AsAsked;
    let call = Call::WriteCard { buffer, card };
    assert_eq!(recording.entries[0].call, call);
    let bytes = Answer::Bytes(vec![0x53, 0x53, 0x52, 1, 0]);
    let answer = recording.entries[0].answer.as_ref();
    assert_eq!(answer.map(|recorded| &recorded.answer), Some(&bytes));
    let bytes = vec![0x00, 0xff, 0x5a];
    assert_eq!(recording.entries[3].call, Call::ReadCard { bytes });
    assert_eq!(recording.entries[4].call, Call::SessionCard);
}

#[test]
fn version_1_has_no_line_of_version_2() {
    for line in CARDS.lines().chain(["gauge = 5", "pack 0 5 - = -"]) {
        let error = parse(&text(line), here(), true).unwrap_err();
        assert_eq!(error.line, 2, "{line}");
        assert!(error.expected.starts_with("a call (columns, "), "{line}");
        assert!(error.expected.contains(", feed or read) "), "{line}");
        assert!(parse(&second(line), here(), true).is_ok(), "{line}");
    }
}

#[test]
fn a_version_that_there_is_not_is_an_error() {
    for first in [
        "",
        "funnelivy recording",
        "funnelivy recording 0",
        "funnelivy recording 3",
        "funnelivy recording 2 ",
    ] {
        let error = parse(&format!("{first}\n"), here(), true).unwrap_err();
        let expected = "`funnelivy recording 1` or `funnelivy recording 2`".to_owned();
        assert_eq!(error, Error { line: 1, expected }, "{first}");
    }
}

#[test]
fn what_is_no_line_of_version_2() {
    let zeros = "00000000 0000000000000000 255 0 00000000";
    for wrong in [
        format!("card1 56 4 1 0 0 0 {zeros}"),
        format!("card1 56 4 1 0 0 {zeros} = refused 14"),
        format!("card1 56 4 1 0 0 0 {zeros} 0 = refused 14"),
        format!("card1 56 256 1 0 0 0 {zeros} = refused 14"),
        format!("card1 56 4 256 0 0 0 {zeros} = refused 14"),
        format!("card1 -1 4 1 0 0 0 {zeros} = refused 12"),
        format!("card1 56 4 1 -1 0 0 {zeros} = refused 14"),
        "card1 56 4 1 0 0 0 00000000 0000000000000000 256 0 00000000 = refused 14".to_owned(),
        "card1 56 4 1 0 0 0 0000000 0000000000000000 255 0 00000000 = refused 14".to_owned(),
        "card1 56 4 1 0 0 0 00000000 00000000 255 0 00000000 = refused 14".to_owned(),
        "card1 56 4 1 0 0 0 00000000 0000000000000000 none 0 00000000 = refused 14".to_owned(),
        format!("card1 56 4 1 0 0 0 {zeros} = 5"),
        format!("card1 56 4 1 0 0 0 {zeros} = 53 53"),
        "uncard = refused 12".to_owned(),
        "uncard  = refused 12".to_owned(),
        "uncard 535 = refused 12".to_owned(),
        "uncard 5A = refused 12".to_owned(),
        "uncard +5 = refused 12".to_owned(),
        "uncard é5 = refused 12".to_owned(),
        "uncard 53 53 = refused 12".to_owned(),
        "uncard - = -".to_owned(),
        format!("uncard 53 = 4 1 0 0 0 {zeros} 0 0"),
        "cardof 1 = refused 11".to_owned(),
        "cardof = 9223372036854775808".to_owned(),
        "gauge".to_owned(),
        "listen = yes".to_owned(),
    ] {
        let lines = second(&format!("# one\n{wrong}\n"));
        let error = parse(&lines, here(), true).unwrap_err();
        assert_eq!(error.line, 3, "{wrong}");
    }
}

/// Opens and counts what it is asked.
#[derive(Default)]
struct Asked(Vec<String>);

impl Machine for Asked {
    fn make(&mut self, call: &Call) -> Option<Answer> {
        self.0.push(call.to_string());
        Some(match call {
            Call::Open { mode: 16.., .. } => Answer::Refused(1),
            Call::Open { .. } => Answer::Opened,
            _ => Answer::Refused(11),
        })
    }
}

/// What an opening that is not here yet leaves unknown, until the next one.
const LATER: &str = "\
open 4 0 * * - = opened
gauge = 5
read = refused 11
openring 4 0 * * - = refused 5
cardof = refused 11
openring 4 0 * * - = opened
read = refused 12
columns 16 700 = refused 11
open 16 0 * * - = refused 1
cardof = refused 11
open 4 0 * * - = opened
read = refused 11
";

#[test]
fn calls_that_are_not_here_yet_are_left_out_and_said() {
    let recording = parse(&second(LATER), here(), true).unwrap();
    let mut asked = Asked::default();
    let outcome = replay("a.txt", &recording, &mut asked);
    assert_eq!(outcome.differences, Vec::<String>::new());
    assert_eq!((outcome.passed, outcome.left_out), (7, 5));
    let notes = [
        "a.txt:3: left out, this reader does not have `gauge` yet",
        "a.txt:5: left out, this reader does not have `openring` yet",
        "a.txt:7: left out, this reader does not have `openring` yet",
        "a.txt:8: left out, its session was opened or changed by a line left out",
        "a.txt:11: left out, its session was opened or changed by a line left out",
    ];
    assert_eq!(outcome.notes, notes);
    assert_eq!(asked.0.len(), 7);
    let written = record(&recording, &mut Asked::default());
    assert_eq!(written.text.lines().count(), 8);
    assert_eq!(written.left_out, 5);
    assert_eq!(
        written.notes[0],
        "line 3: left out, this reader does not have `gauge` yet"
    );
}

#[test]
fn answers_that_are_not_here_yet_are_left_out_and_said() {
    let card = "00".repeat(66);
    let lines = format!(
        "read = reported 9 1 4 1 4 3f800000 40c5888000000000 none 0 0 3f800000\n\
         read = cutshort 9 1 4 1 4 3f800000\n\
         read = reported mode 4 9 1 4 1 4 3f800000 40c5888000000000 none 0 0 3f800000\n\
         read = cutshort mode 4 9 1 4 1 4 3f800000\n\
         uncard {card} = 4 1 9 1 0 00000000 0000000000000000 255 0 00000000 0 0\n\
         uncard {card} = refused 13\n\
         uncard {card} = refused 12\n\
         read = refused 11\n"
    );
    let recording = parse(&second(&lines), here(), true).unwrap();
    let mut told = Told(vec![Some(Answer::Refused(12)), Some(Answer::Refused(11))]);
    let outcome = replay("a.txt", &recording, &mut told);
    assert_eq!(outcome.differences, Vec::<String>::new());
    assert_eq!((outcome.passed, outcome.left_out), (2, 6));
    let due = ["read", "read", "read", "read", "uncard", "uncard"];
    assert_eq!(outcome.notes.len(), due.len());
    for ((note, word), line) in outcome.notes.iter().zip(due).zip(2..) {
        let why = format!("left out, this reader does not have such an answer of `{word}` yet");
        assert_eq!(*note, format!("a.txt:{line}: {why}"));
    }
    // A machine that records makes its own; version 1 has no such answers.
    let calls = parse(&second(&lines), here(), false).unwrap().entries;
    let answered = calls.iter().filter(|entry| entry.answer.is_some());
    assert_eq!((calls.len(), answered.count()), (8, 2));
    for line in lines.lines().take(6) {
        assert_eq!(parse(&text(line), here(), true).unwrap_err().line, 2);
    }
}

#[test]
fn differences_are_told_with_file_and_line() {
    let recording = parse(
        &text("columns 0 700 = 28\nread = refused 11\n"),
        here(),
        true,
    )
    .unwrap();
    let mut told = Told(vec![Some(Answer::Count(29)), None]);
    let outcome = replay("a.txt", &recording, &mut told);
    assert_eq!(
        (outcome.passed, outcome.failed, outcome.left_out),
        (0, 1, 1)
    );
    assert_eq!(outcome.differences, ["a.txt:2: recorded 28, got 29"]);
}

#[test]
fn comments_and_empty_lines_are_passed_over() {
    let recording = parse(&text("# why\n\nread = refused 11\n"), here(), true).unwrap();
    assert_eq!(recording.entries[0].line, 4);
}

#[test]
fn anything_else_is_an_error_with_its_line() {
    let at = |lines: &str| parse(&text(lines), here(), true).unwrap_err().line;
    assert_eq!(parse("", here(), true).unwrap_err().line, 1);
    for wrong in [
        "columns 0 700",
        "columns 0  700 = 28",
        "columns 0 +700 = 28",
        "columns 0 700 = 0x1c",
        "find 0 40C5888000000000 * * - = refused 5",
        "find 0 40c58880 * * - = refused 5",
        "edge 3*,1 = 0",
        "probe 0000000000000000 - = maybe",
        "feed * * * * - - = took",
        "read = reported 1 2",
        "listen = yes",
    ] {
        assert_eq!(at(&format!("# one\n{wrong}\n")), 3, "{wrong}");
    }
}

#[test]
fn a_list_that_is_too_long_is_an_error_that_says_so() {
    let too_long = format!("a list of at most {MOST_ELEMENTS} elements");
    for n in [MOST_ELEMENTS + 1, 1 << 50, 1 << 62, usize::MAX] {
        for line in [
            format!("edge {n}*0 = refused 9"),
            format!("edge 1,{n}*0,{n}*1 = refused 9"),
            format!("find 0 40c5888000000000 * * {n}*0 = refused 6"),
            format!("fill 8 * {n}*00000000 = 512*00000000"),
            format!("fill 8 * - = {n}*00000000"),
            format!("feed * * * * - {n}*00000000 = refused 6"),
        ] {
            let error = parse(&text(&line), here(), true).unwrap_err();
            assert_eq!((error.line, &error.expected), (2, &too_long), "{line}");
        }
    }
    let longest = format!(
        "find 0 40c5888000000000 * * 1,{}*0 = refused 6",
        MOST_ELEMENTS - 1
    );
    assert!(parse(&text(&longest), here(), true).is_ok());
}

#[test]
fn a_number_beyond_64_bits_is_an_error() {
    for line in [
        "fill 8 18446744073709551616 - = refused 5",
        "open 9 18446744073709551616 * * - = refused 4",
        "edge 18446744073709551616*0 = refused 9",
    ] {
        assert!(parse(&text(line), here(), true).is_err(), "{line}");
    }
    let most = "fill 8 18446744073709551615 - = refused 5";
    assert!(parse(&text(most), here(), true).is_ok());
}

#[test]
fn answers_may_be_missing_only_where_they_are_to_be_made() {
    assert!(parse(&text("read\n"), here(), false).is_ok());
    assert!(parse(&text("read\n"), here(), true).is_err());
}

#[test]
fn lists_may_stand_in_files() {
    let folder = std::env::temp_dir().join(format!("recording-{}", std::process::id()));
    std::fs::create_dir_all(&folder).unwrap();
    std::fs::write(folder.join("flags"), [0, 1, 2]).unwrap();
    std::fs::write(folder.join("sound"), 0.5_f32.to_le_bytes()).unwrap();
    let source = Source { folder: &folder };
    let read = |line: &str| parse(&text(line), source, true).map(|r| r.entries[0].call.clone());
    assert_eq!(
        read("find 0 40c5888000000000 * * @flags = refused 7\n"),
        read("find 0 40c5888000000000 * * 0,1,2 = refused 7\n")
    );
    assert_eq!(
        read("fill 0 * @sound = refused 5\n"),
        read("fill 0 * 3f000000 = refused 5\n")
    );
    assert!(read("fill 0 * @missing = refused 5\n").is_err());
    std::fs::remove_dir_all(folder).unwrap();
}
