//! What a session costs: memory, and the stations that a core carries.

use crate::clock::each;
use crate::find;
use crate::input::{modes, FLAGS_A_SECOND};
use crate::start;
use funnelivy::ffi::RawSession;
use funnelivy::{sizes, Work};
use std::time::Duration;

/// Bytes of the sample store: only Robot 24 and 36 have one.
fn sample_bytes(mode: u8, capacity: u64) -> u64 {
    if mode == 3 || mode == 4 {
        4 * (4 * capacity + 4)
    } else {
        0
    }
}

/// The digits in groups of three.
fn grouped(n: u64) -> String {
    let digits = n.to_string();
    let mut text = String::new();
    for (place, digit) in digits.chars().enumerate() {
        if place > 0 && (digits.len() - place).is_multiple_of(3) {
            text.push(',');
        }
        text.push(digit);
    }
    text
}

pub fn print_memory(_repeats: usize) {
    let record = size_of::<RawSession>() as u64;
    let work = Work::new();
    let shared = work.img.len() + size_of_val(&work.votes[..]);
    println!(
        "Memory of a session over the shortest store, F = w + P, in bytes; the work memory, {} \
         bytes, serves any number of sessions in turn:\n",
        grouped(shared as u64)
    );
    println!("| mode | w | P | record | flag store | sample store | session |");
    println!("|---|---|---|---|---|---|---|");
    for (mode, name) in modes() {
        let sizes = sizes(mode).expect("a mode");
        let flags = sizes.window + sizes.picture;
        let samples = sample_bytes(mode, flags);
        let session = record + flags + samples;
        let numbers = [sizes.window, sizes.picture, record, flags, samples, session];
        println!("| {name} | {} |", numbers.map(grouped).join(" | "));
    }
}

/// The time in which so many flags come in.
#[allow(clippy::cast_precision_loss)]
fn seconds(flags: usize) -> f64 {
    flags as f64 / FLAGS_A_SECOND
}

/// Seconds of processor time that a station takes in one second: a search on
/// noise throughout, and `find_sync` on noise once in the time of a picture.
fn share(search: Duration, find: Duration, picture: usize) -> f64 {
    let searching = each(search, start::FLAGS) * 1e-9 * FLAGS_A_SECOND;
    searching + find.as_secs_f64() / seconds(picture)
}

pub fn print_stations(repeats: usize) {
    println!("Stations that one core carries in real time:\n");
    println!(
        "| mode | picture, s | port: search, ns a flag | port: `find_sync`, ms | port: stations | \
         Rust: stations |"
    );
    println!("|---|---|---|---|---|---|");
    let noise = start::noisy();
    for (mode, name) in modes() {
        let search = start::times(mode, &noise, repeats);
        let find = find::times(mode, &find::noisy(mode), repeats);
        let picture = find::picture(mode);
        let port = share(search.port, find.port, picture);
        let rust = share(search.rust, find.rust, picture);
        println!(
            "| {name} | {:.1} | {:.0} | {:.2} | {:.0} | {:.0} |",
            seconds(picture),
            each(search.port, start::FLAGS),
            find.port.as_secs_f64() * 1e3,
            (1.0 / port).floor(),
            (1.0 / rust).floor()
        );
    }
}
