//! Reading and writing WAV files: mono sound at the working rate.

use std::fmt;
use std::io::{self, Read, Write};

/// The rate that the detector works at, in samples a second.
pub const WORKING_SAMPLE_RATE_HZ: u32 = 11_025;

/// Why a file is no sound that the detector takes.
#[derive(Debug)]
pub enum WavError {
    /// The file could not be read.
    Io(io::Error),
    /// The file is no WAV file, or is cut off.
    Malformed(&'static str),
    /// A sample format that is not read here.
    Format { tag: u16, bits: u16 },
    /// More than one channel.
    Channels(u16),
    /// Another rate than the working rate.
    Rate(u32),
}

impl fmt::Display for WavError {
    fn fmt(&self, f: &mut fmt::Formatter<'_>) -> fmt::Result {
        match self {
            Self::Io(e) => write!(f, "cannot be read: {e}"),
            Self::Malformed(what) => write!(f, "is no WAV file: {what}"),
            Self::Format { tag, bits } => write!(
                f,
                "has samples of format {tag} with {bits} bits; 8, 16, 24 and 32 bit PCM and \
                 32 bit float are read. Convert it, for example: sox IN -b 16 OUT.wav"
            ),
            Self::Channels(n) => write!(
                f,
                "has {n} channels; one is needed. Convert it, for example: sox IN OUT.wav remix 1"
            ),
            Self::Rate(rate) => write!(
                f,
                "is at {rate} Hz; {WORKING_SAMPLE_RATE_HZ} Hz is needed. Convert it, for \
                 example: sox IN -r {WORKING_SAMPLE_RATE_HZ} OUT.wav"
            ),
        }
    }
}

impl std::error::Error for WavError {}

impl From<io::Error> for WavError {
    fn from(e: io::Error) -> Self {
        Self::Io(e)
    }
}

const PCM: u16 = 1;
const FLOAT: u16 = 3;
const EXTENSIBLE: u16 = 0xfffe;

struct Layout {
    tag: u16,
    channels: u16,
    rate: u32,
    bits: u16,
}

fn u16_at(bytes: &[u8], at: usize) -> u16 {
    u16::from_le_bytes([bytes[at], bytes[at + 1]])
}

fn u32_at(bytes: &[u8], at: usize) -> u32 {
    u32::from_le_bytes([bytes[at], bytes[at + 1], bytes[at + 2], bytes[at + 3]])
}

fn layout(chunk: &[u8]) -> Result<Layout, WavError> {
    if chunk.len() < 16 {
        return Err(WavError::Malformed("its format chunk is too short"));
    }
    let tag = u16_at(chunk, 0);
    Ok(Layout {
        // an extensible header names the real format at byte 24
        tag: if tag == EXTENSIBLE && chunk.len() >= 26 {
            u16_at(chunk, 24)
        } else {
            tag
        },
        channels: u16_at(chunk, 2),
        rate: u32_at(chunk, 4),
        bits: u16_at(chunk, 14),
    })
}

#[allow(clippy::cast_precision_loss, clippy::cast_possible_truncation)]
fn samples(data: &[u8], layout: &Layout) -> Result<Vec<f32>, WavError> {
    let scaled = |value: i32, bits: u16| value as f32 / (1_i64 << (bits - 1)) as f32;
    Ok(match (layout.tag, layout.bits) {
        (PCM, 8) => data
            .iter()
            .map(|&b| (f32::from(b) - 128.0) / 128.0)
            .collect(),
        (PCM, 16) => data
            .chunks_exact(2)
            .map(|b| f32::from(i16::from_le_bytes([b[0], b[1]])) / 32_768.0)
            .collect(),
        (PCM, 24) => data
            .chunks_exact(3)
            .map(|b| scaled(i32::from_le_bytes([0, b[0], b[1], b[2]]) >> 8, 24))
            .collect(),
        (PCM, 32) => data
            .chunks_exact(4)
            .map(|b| scaled(i32::from_le_bytes([b[0], b[1], b[2], b[3]]), 32))
            .collect(),
        (FLOAT, 32) => data
            .chunks_exact(4)
            .map(|b| f32::from_le_bytes([b[0], b[1], b[2], b[3]]))
            .collect(),
        (tag, bits) => return Err(WavError::Format { tag, bits }),
    })
}

/// The bytes of a data chunk of this size whose first byte is number `from`.
///
/// A recorder fills the sizes in when it stops. Stopped hard it leaves the data's
/// as 0, 0xffffffff or another that is past the end, and then the sound goes to
/// the end of the file. But where the file's own size is filled in, a size of 0
/// means no sound: what follows it is another chunk, as a LIST with a title.
fn data_bytes(bytes: &[u8], from: usize, size: usize) -> &[u8] {
    let body = &bytes[from..];
    let filled_in = u32_at(bytes, 4) as usize + 8 == bytes.len();
    if size == 0 && !filled_in {
        return body;
    }
    &body[..size.min(body.len())]
}

/// The samples of a mono WAV file at the working rate, each held to -1..1.
///
/// # Errors
/// What keeps the file from being such sound, with how to convert it.
pub fn read_wav(mut from: impl Read) -> Result<Vec<f32>, WavError> {
    let mut bytes = Vec::new();
    from.read_to_end(&mut bytes)?;
    if bytes.len() < 12 || &bytes[..4] != b"RIFF" || &bytes[8..12] != b"WAVE" {
        return Err(WavError::Malformed("it does not begin with RIFF and WAVE"));
    }
    let mut at = 12;
    let mut format = None;
    while at + 8 <= bytes.len() {
        let name = &bytes[at..at + 4];
        let size = u32_at(&bytes, at + 4) as usize;
        if name == b"fmt " {
            let body = &bytes[at + 8..];
            format = Some(layout(&body[..size.min(body.len())])?);
        } else if name == b"data" {
            let format = format.ok_or(WavError::Malformed("its format chunk is missing"))?;
            if format.channels != 1 {
                return Err(WavError::Channels(format.channels));
            }
            if format.rate != WORKING_SAMPLE_RATE_HZ {
                return Err(WavError::Rate(format.rate));
            }
            let mut sound = samples(data_bytes(&bytes, at + 8, size), &format)?;
            for s in &mut sound {
                *s = if s.is_finite() {
                    s.clamp(-1.0, 1.0)
                } else {
                    0.0
                };
            }
            return Ok(sound);
        }
        at += 8 + size + size % 2;
    }
    Err(WavError::Malformed("it has no data chunk"))
}

/// Writes mono sound at the working rate as 16 bit PCM.
///
/// # Errors
/// Where the file cannot be written.
#[allow(clippy::cast_possible_truncation)]
pub fn write_wav(mut to: impl Write, sound: &[f32]) -> io::Result<()> {
    let data = u32::try_from(sound.len() * 2)
        .ok()
        .filter(|data| *data <= u32::MAX - 36)
        .ok_or_else(|| io::Error::new(io::ErrorKind::InvalidInput, "too long for a WAV file"))?;
    let mut bytes = Vec::with_capacity(44 + sound.len() * 2);
    bytes.extend_from_slice(b"RIFF");
    bytes.extend_from_slice(&(36 + data).to_le_bytes());
    bytes.extend_from_slice(b"WAVEfmt ");
    bytes.extend_from_slice(&16_u32.to_le_bytes());
    bytes.extend_from_slice(&PCM.to_le_bytes());
    bytes.extend_from_slice(&1_u16.to_le_bytes());
    bytes.extend_from_slice(&WORKING_SAMPLE_RATE_HZ.to_le_bytes());
    bytes.extend_from_slice(&(WORKING_SAMPLE_RATE_HZ * 2).to_le_bytes());
    bytes.extend_from_slice(&2_u16.to_le_bytes());
    bytes.extend_from_slice(&16_u16.to_le_bytes());
    bytes.extend_from_slice(b"data");
    bytes.extend_from_slice(&data.to_le_bytes());
    for s in sound {
        let scaled = (s.clamp(-1.0, 1.0) * 32_767.0).round() as i16;
        bytes.extend_from_slice(&scaled.to_le_bytes());
    }
    to.write_all(&bytes)
}

#[cfg(test)]
mod tests {
    use super::*;

    fn file(tag: u16, channels: u16, rate: u32, bits: u16, data: &[u8]) -> Vec<u8> {
        let mut b = b"RIFF\0\0\0\0WAVEfmt ".to_vec();
        b.extend_from_slice(&16_u32.to_le_bytes());
        b.extend_from_slice(&tag.to_le_bytes());
        b.extend_from_slice(&channels.to_le_bytes());
        b.extend_from_slice(&rate.to_le_bytes());
        b.extend_from_slice(&0_u32.to_le_bytes());
        b.extend_from_slice(&0_u16.to_le_bytes());
        b.extend_from_slice(&bits.to_le_bytes());
        b.extend_from_slice(b"data");
        b.extend_from_slice(&u32::try_from(data.len()).unwrap().to_le_bytes());
        b.extend_from_slice(data);
        b
    }

    #[test]
    fn what_is_written_is_read() {
        let sound = [0.0, 0.5, -0.5, 1.0, -1.0];
        let mut bytes = Vec::new();
        write_wav(&mut bytes, &sound).unwrap();
        let back = read_wav(&bytes[..]).unwrap();
        assert_eq!(back.len(), sound.len());
        for (a, b) in sound.iter().zip(&back) {
            assert!((a - b).abs() < 1e-4);
        }
    }

    #[test]
    fn other_rates_and_channels_are_errors_that_say_how_to_convert() {
        let rate = read_wav(&file(PCM, 1, 44_100, 16, &[0, 0])[..]).unwrap_err();
        assert!(rate.to_string().contains("sox IN -r 11025"));
        let stereo = read_wav(&file(PCM, 2, 11_025, 16, &[0, 0])[..]).unwrap_err();
        assert!(stereo.to_string().contains("remix 1"));
    }

    #[test]
    fn sample_formats() {
        let read = |tag, bits, data: &[u8]| read_wav(&file(tag, 1, 11_025, bits, data)[..]);
        assert_eq!(read(PCM, 8, &[128, 0]).unwrap(), [0.0, -1.0]);
        assert_eq!(read(PCM, 16, &[0, 0x40]).unwrap(), [0.5]);
        assert_eq!(read(PCM, 24, &[0, 0, 0xc0]).unwrap(), [-0.5]);
        assert_eq!(read(PCM, 32, &[0, 0, 0, 0x40]).unwrap(), [0.5]);
        assert_eq!(read(FLOAT, 32, &2.0_f32.to_le_bytes()).unwrap(), [1.0]);
        assert_eq!(read(FLOAT, 32, &f32::NAN.to_le_bytes()).unwrap(), [0.0]);
        assert!(read(2, 4, &[0]).is_err());
        assert!(read_wav(&b"no"[..]).is_err());
    }

    /// Two samples, 0.5 and -0.5, and these bytes after them, under these sizes
    /// of file and data.
    fn stopped(file_size: u32, data_size: u32, after: &[u8]) -> Vec<u8> {
        let mut b = file(PCM, 1, 11_025, 16, &[0, 0x40, 0, 0xc0]);
        b.extend_from_slice(after);
        b[4..8].copy_from_slice(&file_size.to_le_bytes());
        b[40..44].copy_from_slice(&data_size.to_le_bytes());
        b
    }

    #[test]
    fn sizes_that_were_not_filled_in_mean_to_the_end_of_the_file() {
        for file_size in [0, 36, u32::MAX] {
            for data_size in [0, u32::MAX, 5, 1 << 31] {
                let sound = read_wav(&stopped(file_size, data_size, &[])[..]).unwrap();
                assert_eq!(sound, [0.5, -0.5], "{file_size} {data_size}");
                // half of a sample that was not written out
                let sound = read_wav(&stopped(file_size, data_size, &[0])[..]).unwrap();
                assert_eq!(sound, [0.5, -0.5], "{file_size} {data_size}");
            }
            let sound = read_wav(&stopped(file_size, 2, &[])[..]).unwrap();
            assert_eq!(sound, [0.5]);
        }
    }

    #[test]
    fn an_empty_data_chunk_of_a_finished_file_is_empty() {
        let mut whole = file(PCM, 1, 11_025, 16, &[]);
        whole[4..8].copy_from_slice(&36_u32.to_le_bytes());
        assert_eq!(read_wav(&whole[..]).unwrap(), [0.0; 0]);
        whole.extend_from_slice(b"LIST\x04\0\0\0INFO");
        whole[4..8].copy_from_slice(&48_u32.to_le_bytes());
        assert_eq!(read_wav(&whole[..]).unwrap(), [0.0; 0]);
        // unfinished, and nothing after the header
        let header = file(PCM, 1, 11_025, 16, &[]);
        assert_eq!(read_wav(&header[..]).unwrap(), [0.0; 0]);
    }
}
