//! The two forms of a vector file (VECTORS.md), and how floats are written.

use std::path::Path;
use std::{fs, io};

/// What a NaN result is written as. It matches any NaN.
pub const NAN64: u64 = 0x7ff8_0000_0000_0000;
/// The same for an f32.
pub const NAN32: u64 = 0x7fc0_0000;

/// Bits of a result.
#[must_use]
pub fn bits64(x: f64) -> u64 {
    if x.is_nan() {
        NAN64
    } else {
        x.to_bits()
    }
}

/// Bits of a result.
#[must_use]
pub fn bits32(x: f32) -> u64 {
    if x.is_nan() {
        NAN32
    } else {
        u64::from(x.to_bits())
    }
}

/// A file that is being put together.
#[derive(Default)]
pub struct Records {
    bytes: Vec<u8>,
    number: usize,
}

impl Records {
    /// A short record: op, a, b, c and the expected answer.
    pub fn short(&mut self, op: u64, [a, b, c]: [u64; 3], expected: u64) {
        self.numbers(&[op, a, b, c, expected]);
        self.number += 1;
    }

    /// A long record: op, a, b, c, x, y, z and a payload.
    pub fn long(&mut self, op: u64, [a, b, c]: [u64; 3], [x, y, z]: [u64; 3], payload: &[u8]) {
        self.numbers(&[op, a, b, c, x, y, z, payload.len() as u64]);
        self.bytes.extend_from_slice(payload);
        self.number += 1;
    }

    fn numbers(&mut self, numbers: &[u64]) {
        for n in numbers {
            self.bytes.extend_from_slice(&n.to_le_bytes());
        }
    }

    /// Bytes so far.
    #[must_use]
    pub fn len(&self) -> usize {
        self.bytes.len()
    }

    /// Whether there is no record.
    #[must_use]
    pub fn is_empty(&self) -> bool {
        self.bytes.is_empty()
    }

    /// How many records there are.
    #[must_use]
    pub fn number(&self) -> usize {
        self.number
    }

    /// Write the file, and the folder that it lies in.
    ///
    /// # Errors
    /// What the file system says.
    pub fn write(&self, file: &Path) -> io::Result<()> {
        if let Some(folder) = file.parent() {
            fs::create_dir_all(folder)?;
        }
        fs::write(file, &self.bytes)
    }

    /// Whether the file holds exactly these records.
    ///
    /// # Errors
    /// What the file system says.
    pub fn is_in(&self, file: &Path) -> io::Result<bool> {
        Ok(fs::read(file)? == self.bytes)
    }
}

/// Numbers as a payload.
#[must_use]
pub fn words(numbers: &[u32]) -> Vec<u8> {
    numbers.iter().flat_map(|n| n.to_le_bytes()).collect()
}

/// Samples as a payload.
#[must_use]
pub fn floats(numbers: &[f32]) -> Vec<u8> {
    numbers.iter().flat_map(|n| n.to_le_bytes()).collect()
}

/// Lengths of the runs of equal flags, zeros first, alternating.
#[must_use]
pub fn runs(flags: &[bool]) -> Vec<u32> {
    let mut lengths = Vec::new();
    let (mut value, mut length) = (false, 0);
    for &flag in flags {
        if flag != value {
            lengths.push(length);
            (value, length) = (flag, 0);
        }
        length += 1;
    }
    if length > 0 {
        lengths.push(length);
    }
    lengths
}
