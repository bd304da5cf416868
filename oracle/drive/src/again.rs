//! Reads the vector files and asks the Rust again. It knows nothing of how
//! the vectors were made: only what VECTORS.md says of the files.

use crate::live::Live;
use crate::places;
use crate::record::{bits32, bits64};
use crate::ring;
use crate::search::NOWHERE;
use rustfft::num_complex::Complex;
use slowrx::dsp::access as dsp;
use slowrx::modespec::access as modespec;
use slowrx::sync::access as sync;
use slowrx::sync_start::access::{self as sync_start, Placed};

/// A record of either form. A short one has its answer in `x`.
pub struct Vector<'a> {
    /// The function.
    pub op: u64,
    /// Operands.
    pub a: u64,
    /// Operand.
    pub b: u64,
    /// Operand, or a part of the answer.
    pub c: u64,
    /// Answer.
    pub x: u64,
    /// Answer.
    pub y: u64,
    /// Answer.
    pub z: u64,
    /// What follows the header.
    pub payload: &'a [u8],
}

/// The next number of a list, which gets shorter.
fn number(bytes: &mut &[u8]) -> Option<u64> {
    let (first, rest) = bytes.split_first_chunk()?;
    *bytes = rest;
    Some(u64::from_le_bytes(*first))
}

/// The next word of a list, which gets shorter.
pub fn word(bytes: &mut &[u8]) -> Option<u32> {
    let (first, rest) = bytes.split_first_chunk()?;
    *bytes = rest;
    Some(u32::from_le_bytes(*first))
}

impl<'a> Vector<'a> {
    /// The next record of a file.
    pub fn next(bytes: &mut &'a [u8], long: bool) -> Option<Self> {
        let mut one = || number(bytes);
        let (op, a, b, c, x) = (one()?, one()?, one()?, one()?, one()?);
        if !long {
            let (y, z, payload) = (0, 0, &[][..]);
            return Some(Self {
                op,
                a,
                b,
                c,
                x,
                y,
                z,
                payload,
            });
        }
        let (y, z, n) = (one()?, one()?, one()?);
        let (payload, rest) = bytes.split_at_checked(n as usize)?;
        *bytes = rest;
        Some(Self {
            op,
            a,
            b,
            c,
            x,
            y,
            z,
            payload,
        })
    }

    fn words(&self) -> Vec<u32> {
        let mut bytes = self.payload;
        std::iter::from_fn(|| word(&mut bytes)).collect()
    }

    fn floats(&self) -> Vec<f32> {
        self.words().into_iter().map(f32::from_bits).collect()
    }
}

/// Flags of run lengths.
#[must_use]
pub fn flags(runs: &[u32]) -> Vec<bool> {
    let run = |(i, &length): (usize, &u32)| vec![i % 2 == 1; length as usize];
    runs.iter().enumerate().flat_map(run).collect()
}

/// R and R run lengths.
pub fn counted_flags(bytes: &mut &[u8]) -> Option<Vec<bool>> {
    let number = word(bytes)?;
    let runs: Option<Vec<u32>> = (0..number).map(|_| word(bytes)).collect();
    Some(flags(&runs?))
}

/// Pieces of a list of `n` samples.
pub fn samples(mut bytes: &[u8], n: usize) -> Option<Vec<f32>> {
    let mut list = vec![0.0; n];
    while !bytes.is_empty() {
        let (from, number) = (word(&mut bytes)?, word(&mut bytes)?);
        for i in from..from + number {
            *list.get_mut(i as usize)? = f32::from_bits(word(&mut bytes)?);
        }
    }
    Some(list)
}

/// Whether the Rust answers as the record says; nothing for a record that
/// can't be read.
pub type Judge = fn(&Vector, &mut Live) -> Option<bool>;

/// ieee.
pub fn ieee(v: &Vector, _: &mut Live) -> Option<bool> {
    let [a, b, c] = [v.a, v.b, v.c].map(f64::from_bits);
    let answer = match v.op {
        0 => a as u64,
        1 => a as i64 as u64,
        2 => bits64(a.round()),
        3 => a.round() as i64 as u64,
        4 => a.ceil() as u64,
        5 => bits64(a.max(b)),
        6 => bits64(a.clamp(b, c)),
        7 => bits32(a as f32),
        8 => bits64(f64::from(f32::from_bits(v.a as u32))),
        9 => bits64(a.mul_add(b, c)),
        _ => return None,
    };
    Some(answer == v.x)
}

/// modespec.
pub fn modes(v: &Vector, _: &mut Live) -> Option<bool> {
    let row = modespec::spec(v.a as usize);
    let columns = |n: usize| sync::sync_pulse_columns(row, n) as u64;
    let answer = match (v.op, v.b) {
        (0, 0) => u64::from(row.line_pixels),
        (0, 1) => u64::from(row.image_lines),
        (0, 2) => row.line_seconds.to_bits(),
        (0, 3) => row.sync_seconds.to_bits(),
        (0, 4) => row.porch_seconds.to_bits(),
        (0, 5) => row.pixel_seconds.to_bits(),
        (0, 6) => modespec::layout(row),
        (0, 7) => modespec::sync_position(row),
        (1, _) => u64::from(modespec::radio_lines(row)),
        (2, _) => modespec::skip_correction_seconds(row).to_bits(),
        (3, _) => sync_start::window_lines(row) as u64,
        (4, _) => sync_start::window_probes(row) as u64,
        (5, _) => sync::image_probes(row, f64::from_bits(v.c)) as u64,
        (6, _) => sync::line_width(row) as u64,
        (7, n) => columns(n as usize),
        (8, _) => sync_start::pulse_offset_seconds(row).to_bits(),
        (9, n) => {
            let mut first = n as usize;
            for step in 0..3 {
                let last = (v.c >> (20 * step) & 0xf_ffff) as usize;
                if last == 0 {
                    break;
                }
                if !(first..=last).all(|n| columns(n) == v.x + step) {
                    return Some(false);
                }
                first = last + 1;
            }
            v.x
        }
        _ => return None,
    };
    Some(answer == v.x)
}

/// pulse.
pub fn pulse(v: &Vector, _: &mut Live) -> Option<bool> {
    let words = v.words();
    let counts: Vec<u32> = match v.c {
        0 => words,
        1 => {
            let times = |pair: &[u32]| vec![pair[0]; pair[1] as usize];
            words.chunks_exact(2).flat_map(times).collect()
        }
        _ => return None,
    };
    Some(match v.op {
        0 => {
            let width = v.a as usize;
            let (start, sum) = sync::best_pulse_window(&counts, width);
            let windows = ring::windows(&counts, width) as u64;
            (start as u64, sum, windows) == (v.x, v.y, v.z)
        }
        1 => {
            let row = modespec::spec(v.a as usize);
            bits32(sync::sync_quality(&counts, row, v.b as usize)) == v.x
        }
        2 => sync::falling_edge(&counts) as u64 == v.x,
        _ => return None,
    })
}

/// sync.
pub fn find_sync(v: &Vector, _: &mut Live) -> Option<bool> {
    let mut scratch = sync::Scratch::default();
    let row = modespec::spec(v.a as usize);
    let rate = f64::from_bits(v.b);
    let found = sync::find_sync(&flags(&v.words()), rate, row, &mut scratch);
    let slant = found.slant.map_or(u64::MAX, f64::to_bits);
    let answer = [
        found.rate.to_bits(),
        slant,
        found.skip as u64,
        bits32(found.quality),
    ];
    (v.op == 0).then_some(answer == [v.x, v.y, v.z, v.c])
}

/// dsp.
pub fn sound(v: &Vector, _: &mut Live) -> Option<bool> {
    let mut list = v.floats();
    Some(match v.op {
        0 => bits64(dsp::goertzel_power(&list, 1500.0)) == v.x,
        1 => bits64(dsp::goertzel_power(&list, 2300.0)) == v.x,
        2 => {
            let parts = list.split_off(v.y as usize);
            sync::Tracker::new(0.0).has_sync_at(&list, v.a as usize);
            let seen = rustfft::seen();
            let real = seen.iter().map(|pair| pair.re.to_bits());
            let wanted = parts.iter().map(|part| part.to_bits());
            parts.len() == 16 && real.eq(wanted.chain([0; 240]))
        }
        3 => {
            let pairs = list.chunks_exact(2);
            let pairs: Vec<_> = pairs.map(|p| Complex { re: p[0], im: p[1] }).collect();
            rustfft::inject(&pairs);
            let mut tracker = sync::Tracker::new(f64::from_bits(v.a));
            u64::from(tracker.has_sync_at(&[], 0)) == v.x
        }
        _ => return None,
    })
}

/// The detector at evaluation `j` of a list of flags and samples.
fn at(mode: usize, j: usize, flags: &[bool], samples: &[f32], streak: u32) -> Placed {
    let row = modespec::spec(mode);
    let taken = sync_start::window_probes(row) + 64 * j;
    let known = &samples[..samples.len().min(4 * (taken + 1))];
    Placed::new(row, &flags[..taken], known, j, (64 * j).min(65), streak)
}

/// How many windows of the evaluation's fold have the largest sum.
fn windows(mode: usize, placed: &Placed) -> u64 {
    let width = sync::sync_pulse_columns(modespec::spec(mode), 700);
    ring::windows(&placed.counts(), width) as u64
}

/// One evaluation: position or all ones, streak, and the quality below the count
/// of windows.
fn evaluated(mode: usize, placed: &mut Placed) -> [u64; 3] {
    let start = placed.evaluate();
    let position = start.map_or(NOWHERE, |start| start.position);
    let windows = start.map_or(0, |_| windows(mode, placed));
    let quality = bits32(placed.last_quality());
    [position, placed.streak().into(), quality + (windows << 32)]
}

/// sync_start, both files.
pub fn start(v: &Vector, _: &mut Live) -> Option<bool> {
    let mode = v.a as usize;
    let mut rest = v.payload;
    let flags = counted_flags(&mut rest)?;
    let answer = [v.x, v.y, v.z];
    Some(match v.op {
        0 => {
            let samples = samples(rest, 4 * (flags.len() + 1))?;
            let mut placed = at(mode, v.b as usize, &flags, &samples, v.c as u32);
            evaluated(mode, &mut placed) == answer
        }
        1 => {
            let qualities: Option<Vec<u32>> = (0..v.c).map(|_| word(&mut rest)).collect();
            let samples = samples(rest, 4 * (flags.len() + 1))?;
            let (mut last, mut made) = ([NOWHERE, 0, 0], Vec::new());
            let w = sync_start::window_probes(modespec::spec(mode));
            while last[0] == NOWHERE && w + 64 * made.len() <= flags.len() {
                let mut placed = at(mode, made.len(), &flags, &samples, last[1] as u32);
                last = evaluated(mode, &mut placed);
                made.push(last[2] as u32);
            }
            made == qualities? && last == answer && v.b == flags.len() as u64
        }
        2 => {
            let placed = at(mode, v.b as usize, &flags, &[], 0);
            let width = sync::sync_pulse_columns(modespec::spec(mode), 700);
            let line = placed.first_pulsed_line(v.c as usize, width);
            line.map_or(NOWHERE, |y| y as u64) == v.x
        }
        _ => return None,
    })
}

/// session.
pub fn session(v: &Vector, live: &mut Live) -> Option<bool> {
    let halves = |n: u64| [(n as u32) as usize, (n >> 32) as usize];
    match v.op {
        0 => {
            let first = v.floats();
            let refused = live.open(v.a, v.b, halves(v.c), &first);
            Some(refused == v.x && first.len() as u64 == v.y)
        }
        1 => {
            let [m, n] = halves(v.a);
            let mut rest = v.payload;
            let mut flags: Vec<u8> = counted_flags(&mut rest)?
                .into_iter()
                .map(u8::from)
                .collect();
            for _ in 0..word(&mut rest)? {
                let place = word(&mut rest)? as usize;
                *flags.get_mut(place)? = word(&mut rest)? as u8;
            }
            let samples = samples(rest, n)?;
            let answer = live.feed(halves(v.b), halves(v.c), &flags, &samples);
            Some(flags.len() == m && answer == (v.x, v.y))
        }
        2 => {
            let Some(read) = live.read() else {
                return Some(v.x == 11 && v.payload.is_empty());
            };
            let (mut words, card) = v.payload.split_at_checked(72)?;
            let wanted: Vec<u64> = std::iter::from_fn(|| number(&mut words)).collect();
            let like = v.x == 0 && read.0 == v.y && read.1[..] == wanted;
            let mode = live.mode();
            let windows = match read {
                (1, _) => 0,
                (_, numbers) => {
                    let j = numbers[1] as usize - 1;
                    windows(mode, &at(mode, j, live.flags(), &[], 0))
                }
            };
            let fields = places::of_reading(mode, read);
            Some(like && windows == wanted[3] && places::read(card) == Ok(fields))
        }
        _ => None,
    }
}

/// card.
pub fn card(v: &Vector, _: &mut Live) -> Option<bool> {
    let ten = |mut bytes: &[u8]| -> Option<[u64; 10]> {
        let words: Vec<u64> = std::iter::from_fn(|| number(&mut bytes)).collect();
        words.try_into().ok()
    };
    Some(match v.op {
        0 => {
            let (card, rest) = v.payload.split_at_checked(v.a as usize)?;
            match places::read(card) {
                Ok(fields) => v.x == 0 && ten(rest)? == fields,
                Err(refusal) => v.x == refusal && rest.is_empty(),
            }
        }
        1 => {
            let (card, answers) = v.payload.split_at_checked(56)?;
            let mut card = card.to_vec();
            let right = |(value, &answer): (usize, &u8)| {
                *card.get_mut(v.a as usize)? = value as u8;
                Some(places::read(&card).err().unwrap_or(0) == u64::from(answer))
            };
            let right: Option<Vec<bool>> = answers.iter().enumerate().map(right).collect();
            answers.len() == 256 && right?.into_iter().all(|right| right)
        }
        2 => {
            let (words, bytes) = v.payload.split_at_checked(80)?;
            let fields = ten(words)?;
            let written = if v.x == 0 {
                places::read(bytes) == Ok(fields)
            } else {
                bytes.is_empty()
            };
            places::write_refusal(fields, v.a) == v.x && written
        }
        _ => return None,
    })
}
