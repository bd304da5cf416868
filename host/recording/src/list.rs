//! Lists: `-`, runs as `3*0,5,1`, or `@NAME`, a file beside the recording. And
//! bytes: `-`, or two hexadecimal digits each.

use std::fmt::Write as _;
use std::path::Path;

/// Longest list that runs may stand for: the samples of a flag list that is one
/// longer than any that is taken.
pub const MOST_ELEMENTS: usize = 4 * 16_777_217;

/// Where files named by `@NAME` are looked for.
#[derive(Clone, Copy, Debug)]
pub struct Source<'a> {
    /// The folder of the recording.
    pub folder: &'a Path,
}

impl Source<'_> {
    fn read(&self, name: &str) -> Result<Vec<u8>, String> {
        std::fs::read(self.folder.join(name)).map_err(|e| format!("a readable file {name} ({e})"))
    }
}

/// Splits `3*0,5,1` into (repeats, element).
fn runs<T>(text: &str, element: impl Fn(&str) -> Option<T>) -> Option<Vec<(usize, T)>> {
    if text == "-" {
        return Some(Vec::new());
    }
    text.split(',')
        .map(|part| match part.split_once('*') {
            Some((times, value)) => Some((decimal(times)?, element(value)?)),
            None => Some((1, element(part)?)),
        })
        .collect()
}

/// A decimal number: digits alone.
pub(crate) fn decimal<T: std::str::FromStr>(text: &str) -> Option<T> {
    let digits = !text.is_empty() && text.bytes().all(|b| b.is_ascii_digit());
    digits.then(|| text.parse().ok()).flatten()
}

/// Hexadecimal digits in lower case, exactly `digits` of them.
pub(crate) fn bits(text: &str, digits: usize) -> Option<u64> {
    let lower = |b: u8| b.is_ascii_digit() || (b'a'..=b'f').contains(&b);
    let right = text.len() == digits && text.bytes().all(lower);
    right.then(|| u64::from_str_radix(text, 16).ok()).flatten()
}

fn unrolled<T: Clone>(runs: Vec<(usize, T)>) -> Result<Vec<T>, String> {
    let mut all = Vec::new();
    for (times, value) in runs {
        let length = all.len().saturating_add(times);
        if length > MOST_ELEMENTS {
            return Err(format!("a list of at most {MOST_ELEMENTS} elements"));
        }
        all.resize(length, value);
    }
    Ok(all)
}

/// Counts or flags. A file holds one byte an element.
///
/// # Errors
/// What was expected instead, in words.
pub fn read_numbers<T>(text: &str, source: Source<'_>) -> Result<Vec<T>, String>
where
    T: Clone + std::str::FromStr + From<u8>,
{
    if let Some(name) = text.strip_prefix('@') {
        return Ok(source.read(name)?.into_iter().map(T::from).collect());
    }
    runs(text, decimal)
        .ok_or_else(|| "a list of numbers, as `3*0,5,1` or `-`".to_owned())
        .and_then(unrolled)
}

/// Floats by their bits. A file holds little-endian f32 values.
///
/// # Errors
/// What was expected instead, in words.
pub fn read_floats(text: &str, source: Source<'_>) -> Result<Vec<f32>, String> {
    if let Some(name) = text.strip_prefix('@') {
        let bytes = source.read(name)?;
        if bytes.len() % 4 != 0 {
            return Err(format!("a file {name} of four bytes a number"));
        }
        return Ok(bytes
            .chunks_exact(4)
            .map(|b| f32::from_le_bytes([b[0], b[1], b[2], b[3]]))
            .collect());
    }
    let float = |t: &str| {
        bits(t, 8)
            .and_then(|b| u32::try_from(b).ok())
            .map(f32::from_bits)
    };
    runs(text, float)
        .ok_or_else(|| "a list of floats by 8 hexadecimal digits each, or `-`".to_owned())
        .and_then(unrolled)
}

/// Bytes by two hexadecimal digits each.
///
/// # Errors
/// What was expected instead, in words.
pub fn read_bytes(text: &str) -> Result<Vec<u8>, String> {
    if text == "-" {
        return Ok(Vec::new());
    }
    let pair = |b: &[u8]| {
        let digits = bits(std::str::from_utf8(b).ok()?, 2)?;
        u8::try_from(digits).ok()
    };
    let bytes = text.as_bytes().chunks(2).map(pair).collect();
    let some = if text.is_empty() { None } else { bytes };
    some.ok_or_else(|| format!("bytes by 2 hexadecimal digits each, or `-`, instead of `{text}`"))
}

fn written<T: PartialEq>(values: &[T], element: impl Fn(&T) -> String) -> String {
    if values.is_empty() {
        return "-".to_owned();
    }
    let mut parts = Vec::new();
    let mut at = 0;
    while at < values.len() {
        let times = values[at..]
            .iter()
            .take_while(|v| **v == values[at])
            .count()
            .max(1);
        let one = element(&values[at]);
        parts.push(if times == 1 {
            one
        } else {
            format!("{times}*{one}")
        });
        at += times;
    }
    parts.join(",")
}

/// Counts or flags with repeats.
pub fn write_numbers<T: PartialEq + ToString>(values: &[T]) -> String {
    written(values, ToString::to_string)
}

/// Floats by their bits, with repeats.
#[must_use]
pub fn write_floats(values: &[f32]) -> String {
    let bits: Vec<u32> = values.iter().map(|v| v.to_bits()).collect();
    written(&bits, |b| format!("{b:08x}"))
}

/// Bytes by two hexadecimal digits each.
#[must_use]
pub fn write_bytes(bytes: &[u8]) -> String {
    if bytes.is_empty() {
        return "-".to_owned();
    }
    bytes.iter().fold(String::new(), |mut text, b| {
        let _ = write!(text, "{b:02x}");
        text
    })
}
