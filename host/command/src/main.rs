//! The command `funnelivy`.

mod cards;
mod flags;
mod ledger;
mod modes;
mod synth;
mod wav;

use cards::Appending;
use clap::{Parser, Subcommand};
use flags::Prober;
use funnelivy::machine::Port;
use funnelivy::Report;
use ledger::{agree, pictures, Found, Keeping, Picture};
use modes::{mode_by_name, ModeTiming, MODE_NAMES};
use std::io::{IsTerminal, Write};
use std::path::{Path, PathBuf};
use std::process::ExitCode;

/// Where slow-scan pictures start in a recording, and how they lean.
///
/// Exit status: 0 done; 1 an answer differs, or no picture was found; 2 a file
/// or an argument is not what it should be.
#[derive(Parser)]
#[command(name = "funnelivy", version)]
struct Arguments {
    #[command(subcommand)]
    command: Command,
}

#[derive(Subcommand)]
enum Command {
    /// Make each call of recordings again and print the answers that differ
    ///
    /// For each answer that differs: file, line, the answer recorded and the
    /// one got, in the fields that the line has. A line of version 2 whose call is
    /// not there yet is left out, and said to be. The last line is `N passed, M
    /// failed`; the status is 0 if M is 0.
    Replay {
        /// Recordings: text whose first line is `funnelivy recording 1`, or 2
        #[arg(required = true)]
        files: Vec<PathBuf>,
    },
    /// Write a recording with this machine's answers to standard output
    ///
    /// A line of a recording is a call and its answer, as `columns 0 700 = 28`
    /// or `read = refused 11`; host/recordings has examples.
    Record {
        /// A recording, or its calls alone
        file: PathBuf,
    },
    /// A line for each picture of a mono WAV file at 11,025 Hz
    ///
    /// Where it starts, how many windows have the largest sum there (several tie
    /// where the sync tone lasts too long, as on a dead carrier), the true sampling
    /// rate, the slant (90° is upright), the samples to skip from the start to the
    /// first line, and the qualities. With --cards the card of each of these
    /// pictures, 56 bytes, is appended to a file, in the same order.
    Ledger {
        /// A mono WAV file at 11,025 Hz
        file: PathBuf,
        #[arg(long, value_parser = mode, help = MODE_HELP)]
        mode: u8,
        /// The number of the file's first sample
        #[arg(long, default_value_t = 0)]
        anchor: u64,
        /// Flags of a feed
        #[arg(long, default_value_t = 64, value_parser = clap::value_parser!(u32).range(1..))]
        block: u32,
        /// Append the 56 bytes of each picture's card to this file of cards, which
        /// is made if it is missing
        #[arg(long, value_name = "FILE")]
        cards: Option<PathBuf>,
    },
    /// Print the ledger cards of a file, a line each
    ///
    /// Mode, end, flags taken, evaluations, start, start quality, rate, slant, skip
    /// and image quality; what the card's end lacks is left out. A card that is
    /// refused is named with its number and the cause; the status is then 2.
    Cards {
        /// Cards of 56 bytes, one behind the other, as `ledger --cards` writes them
        file: PathBuf,
    },
    /// Primary and standby side by side: whether their ledgers agree
    ///
    /// The primary counts samples from 1,000,000 and feeds blocks of 64 flags.
    /// The standby begins where the session open at --at began, counts from 0
    /// and feeds blocks of 1,021. The status is 0 if the ledgers agree.
    Takeover {
        /// A mono WAV file at 11,025 Hz
        file: PathBuf,
        #[arg(long, value_parser = mode, help = MODE_HELP)]
        mode: u8,
        /// The sample of the file at which the standby takes over
        #[arg(long)]
        at: u64,
    },
    /// Write a synthesised transmission: two pictures, with slant and noise
    Synthesise {
        /// The WAV file to write
        file: PathBuf,
        /// pd120, robot36, scottie1 or martin1
        #[arg(long, value_parser = mode, default_value = "robot36")]
        mode: u8,
        /// The sender's sampling rate as heard here, in Hz
        #[arg(long, value_parser = rate, default_value_t = 11_028.0)]
        rate: f64,
        /// Noise as a part of full scale
        #[arg(long, default_value_t = 0.05)]
        noise: f32,
    },
}

const MODE_HELP: &str = "The mode's name, as \"Robot 36\", or its number: \
    0 pd120, 1 pd180, 2 pd240, 3 robot24, 4 robot36, 5 robot72, 6 robot24bw, 7 robot12bw, \
    8 robot8bw, 9 scottie1, 10 scottie2, 11 scottiedx, 12 martin1, 13 martin2, 14 wraase120, \
    15 wraase180";

fn mode(name: &str) -> Result<u8, String> {
    mode_by_name(name).ok_or_else(|| {
        format!(
            "no such mode; the modes are {} or 0 to 15",
            MODE_NAMES.join(", ")
        )
    })
}

/// The rates that `find_sync` takes.
fn rate(hz: &str) -> Result<f64, String> {
    hz.parse()
        .ok()
        .filter(|hz| (8_000.0..=48_000.0).contains(hz))
        .ok_or_else(|| "a rate is a number from 8000 to 48000".to_owned())
}

/// What keeps the command from doing its work, in words.
type Trouble = String;

fn main() -> ExitCode {
    match run(Arguments::parse().command) {
        Ok(true) => ExitCode::SUCCESS,
        Ok(false) => ExitCode::from(1),
        Err(trouble) => {
            eprintln!("funnelivy: {trouble}");
            ExitCode::from(2)
        }
    }
}

fn run(command: Command) -> Result<bool, Trouble> {
    match command {
        Command::Replay { files } => {
            recording::commands::replay_files(&files, || Box::<Port>::default())
        }
        Command::Record { file } => {
            recording::commands::record_file(&file, &mut Port::default()).map(|()| true)
        }
        Command::Ledger {
            file,
            mode,
            anchor,
            block,
            cards,
        } => {
            let keeping = Keeping {
                mode,
                anchor,
                block: block as usize,
            };
            print_pictures(&file, &keeping, cards.as_deref())
        }
        Command::Cards { file } => cards::print(&file).map(|()| true),
        Command::Takeover { file, mode, at } => takeover(&file, mode, at),
        Command::Synthesise {
            file,
            mode,
            rate,
            noise,
        } => synthesise(&file, mode, rate, noise).map(|()| true),
    }
}

/// A sound with its probe flags.
struct Heard {
    sound: Vec<f32>,
    flags: Vec<u8>,
}

fn hear(file: &Path) -> Result<Heard, Trouble> {
    let name = file.display();
    let open = std::fs::File::open(file).map_err(|e| format!("{name} cannot be read: {e}"))?;
    let sound = wav::read_wav(open).map_err(|e| format!("{name} {e}"))?;
    let terminal = std::io::stderr().is_terminal();
    let flags = Prober::new()
        .flags(&sound, |done, all| {
            if terminal && all > 0 {
                eprint!("\rhearing {name}: {}%", 100 * done / all);
                if done == all {
                    eprintln!();
                }
            }
        })
        .map_err(|refusal| format!("{name}: {refusal}"))?;
    Ok(Heard { sound, flags })
}

fn line(number: usize, picture: &Picture) -> String {
    let begin = format!(
        "picture {number}: start {}, {}, start quality {:.3}",
        picture.start,
        windows_in_words(picture.windows),
        picture.start_quality
    );
    match picture.report {
        None => format!("{begin}; the sound ends before the picture"),
        Some(r) => format!("{begin}, {}", report_in_words(&r)),
    }
}

fn windows_in_words(windows: u64) -> String {
    match windows {
        1 => "1 window with the largest sum".to_owned(),
        n => format!("{n} windows tie for the largest sum"),
    }
}

fn report_in_words(r: &Report) -> String {
    let slant = r
        .slant
        .map_or_else(|| "none".to_owned(), |d| format!("{d:.1}°"));
    format!(
        "rate {:.3} Hz, slant {slant}, skip {}, quality {:.3}",
        r.rate, r.skip, r.quality
    )
}

fn print_ledger(title: &str, found: &[Found]) {
    println!("{title}");
    if found.is_empty() {
        println!("  no picture");
    }
    for (one, number) in found.iter().zip(1..) {
        println!("  {}", line(number, &one.picture));
    }
}

fn print_pictures(file: &Path, keeping: &Keeping, cards: Option<&Path>) -> Result<bool, Trouble> {
    // Before the sound is heard, which takes its time.
    let cards = cards.map(Appending::open).transpose()?;
    let heard = hear(file)?;
    let found = pictures(keeping, &heard.flags, &heard.sound, 0).map_err(|r| r.to_string())?;
    print_ledger(
        &format!(
            "{}: {} samples as {}",
            file.display(),
            heard.sound.len(),
            MODE_NAMES[usize::from(keeping.mode)]
        ),
        &found,
    );
    if let Some(mut cards) = cards {
        cards.append(found.iter().map(|one| one.card))?;
    }
    Ok(!found.is_empty())
}

/// The standby counts from zero where the session that the primary has open
/// at `at` began, and feeds other blocks.
fn takeover(file: &Path, mode: u8, at: u64) -> Result<bool, Trouble> {
    const PRIMARY_ANCHOR: u64 = 1_000_000;
    let heard = hear(file)?;
    if at >= heard.sound.len() as u64 {
        return Err(format!(
            "--at {at} is past the sound's {} samples",
            heard.sound.len()
        ));
    }
    let primary = Keeping {
        mode,
        anchor: PRIMARY_ANCHOR,
        block: 64,
    };
    let words = |r: funnelivy::Refusal| r.to_string();
    let whole = pictures(&primary, &heard.flags, &heard.sound, 0).map_err(words)?;
    // The primary's session at that sample: the last one begun by then.
    let mut first = 0;
    for one in &whole {
        let end = one.picture.start - PRIMARY_ANCHOR;
        if 4 * (one.begun as u64) <= at {
            first = one.begun;
        }
        if end > at {
            break;
        }
    }
    let sound = &heard.sound[4 * first..];
    let standby = Keeping {
        mode,
        anchor: 0,
        block: 1_021,
    };
    let taken_over = pictures(&standby, &heard.flags[first..], sound, 0).map_err(words)?;
    print_ledger(
        &format!("primary, anchor {PRIMARY_ANCHOR}, blocks of 64 flags:"),
        &whole,
    );
    print_ledger(
        &format!(
            "standby from the session open at sample {at} (it began at sample {}), \
             anchor 0, blocks of 1,021 flags:",
            4 * first
        ),
        &taken_over,
    );
    let offset = PRIMARY_ANCHOR + 4 * first as u64;
    let agreed = agree(&whole, &taken_over, first, offset);
    println!(
        "the ledgers {}",
        if agreed {
            "agree: every start less the anchor, count of windows, rate, slant, skip and \
             quality is the same"
        } else {
            "DIFFER"
        }
    );
    Ok(agreed)
}

fn synthesise(file: &Path, mode: u8, rate: f64, noise: f32) -> Result<(), Trouble> {
    let timing =
        ModeTiming::of(mode).ok_or("only pd120, robot36, scottie1 and martin1 are synthesised")?;
    let picture = |seed| synth::Picture {
        timing,
        true_rate_hz: rate,
        noise,
        seed,
    };
    let mut sound = synth::transmission(&picture(0x5351), 3.0, 1.5);
    sound.extend(synth::transmission(&picture(0x5352), 2.0, 3.0));
    let mut bytes = Vec::new();
    wav::write_wav(&mut bytes, &sound).map_err(|e| e.to_string())?;
    std::fs::File::create(file)
        .and_then(|mut f| f.write_all(&bytes))
        .map_err(|e| format!("{} cannot be written: {e}", file.display()))
}

#[cfg(test)]
mod tests {
    use super::*;

    #[test]
    fn a_line_says_how_many_windows_tie() {
        let mut picture = Picture {
            start: 1_843,
            windows: 1,
            start_quality: 0.914,
            report: None,
        };
        assert_eq!(
            line(1, &picture),
            "picture 1: start 1843, 1 window with the largest sum, start quality 0.914; \
             the sound ends before the picture"
        );
        picture.windows = 37;
        picture.report = Some(Report {
            rate: 11_025.0,
            slant: Some(90.0),
            skip: 158,
            quality: 0.5,
        });
        assert_eq!(
            line(2, &picture),
            "picture 2: start 1843, 37 windows tie for the largest sum, start quality 0.914, \
             rate 11025.000 Hz, slant 90.0°, skip 158, quality 0.500"
        );
    }
}
