//! Processor time, and cells of a table.

use std::time::Duration;

#[repr(C)]
struct Timespec {
    seconds: i64,
    nanoseconds: i64,
}

extern "C" {
    fn clock_gettime(clock: i32, time: *mut Timespec) -> i32;
}

/// `CLOCK_THREAD_CPUTIME_ID` of Linux.
const THREAD_CPU_TIME: i32 = 3;

/// Processor time of this thread.
fn now() -> Duration {
    let mut time = Timespec {
        seconds: 0,
        nanoseconds: 0,
    };
    // SAFETY: the struct is the C library's `timespec` on 64-bit Linux.
    let status = unsafe { clock_gettime(THREAD_CPU_TIME, &mut time) };
    assert_eq!(status, 0, "the clock of the thread's processor time");
    let nanoseconds = time.seconds * 1_000_000_000 + time.nanoseconds;
    Duration::from_nanos(u64::try_from(nanoseconds).expect("time is not negative"))
}

/// Least times of the Rust and of the port.
#[derive(Clone, Copy)]
pub struct Times {
    pub rust: Duration,
    pub port: Duration,
}

impl Times {
    /// Three cells: both in milliseconds, and the port's as a part of the Rust's.
    pub fn cells(&self) -> String {
        let (rust, port) = (self.rust.as_secs_f64(), self.port.as_secs_f64());
        format!("{:.2} | {:.2} | {:.3}", rust * 1e3, port * 1e3, port / rust)
    }
}

/// The time that a body takes.
pub fn time<T>(body: impl FnOnce() -> T) -> (Duration, T) {
    let begin = now();
    let answer = body();
    (now() - begin, answer)
}

/// The least time of a body.
pub fn least(repeats: usize, mut body: impl FnMut()) -> Duration {
    let times = (0..repeats).map(|_| time(&mut body).0);
    times.min().expect("there is a repeat")
}

/// Nanoseconds for one of `n`.
#[allow(clippy::cast_precision_loss)]
pub fn each(time: Duration, n: usize) -> f64 {
    time.as_secs_f64() * 1e9 / n as f64
}
