//! The time of a call, as median and best of many.

use std::hint::black_box;
use std::time::{Duration, Instant};

/// The median and the best time of one call, in microseconds, and how many were timed.
#[derive(Clone, Copy)]
pub struct Time {
    pub median: f64,
    pub best: f64,
    pub calls: usize,
}

impl Time {
    /// The median and the best of these times of one call, each taken over so many at once.
    pub fn of(mut times: Vec<f64>, at_once: usize) -> Self {
        times.sort_by(f64::total_cmp);
        Time {
            median: times[times.len() / 2],
            best: times[0],
            calls: times.len() * at_once,
        }
    }
}

/// Calls shorter than this are timed several at once.
const SHORTEST: Duration = Duration::from_micros(100);

/// Times calls until so long has passed, at least three times.
pub fn time<T>(budget: Duration, mut call: impl FnMut() -> T) -> Time {
    let started = Instant::now();
    black_box(call());
    let once = started.elapsed().max(Duration::from_nanos(50));
    let at_once = (SHORTEST.as_nanos() / once.as_nanos() + 1) as usize;
    let mut times = Vec::new();
    while times.len() < 3 || started.elapsed() < budget {
        let before = Instant::now();
        for _ in 0..at_once {
            black_box(call());
        }
        times.push(before.elapsed().as_secs_f64() * 1e6 / at_once as f64);
    }
    Time::of(times, at_once)
}
