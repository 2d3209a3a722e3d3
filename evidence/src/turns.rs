//! Two calls timed in turn, by the processor time of this thread, so that what else runs on the machine counts for neither.

use crate::timing::Time;
use std::ffi::c_int;
use std::hint::black_box;
use std::time::{Duration, Instant};

extern "C" {
    fn clock_gettime(clock: c_int, time: *mut [i64; 2]) -> c_int;
}

/// The number that Linux gives to the clock of a thread's processor time.
const OF_THREAD: c_int = 3;

/// The processor time of this thread, in microseconds.
fn now() -> f64 {
    let mut time = [0; 2];
    // SAFETY: seconds and nanoseconds are written, eight bytes each, and nothing else.
    unsafe { clock_gettime(OF_THREAD, &mut time) };
    time[0] as f64 * 1e6 + time[1] as f64 / 1e3
}

/// As many calls are timed at once as take this long, in microseconds.
const SHORTEST: f64 = 1000.0;

/// The microseconds that so many calls of one of the two take.
fn taken<T>(count: usize, which: usize, call: &mut impl FnMut(usize) -> T) -> f64 {
    let before = now();
    for _ in 0..count {
        black_box(call(which));
    }
    now() - before
}

/// How many calls are timed at once.
fn at_once<T>(call: &mut impl FnMut(usize) -> T) -> usize {
    let mut count = 1;
    while taken(count, 0, call).min(taken(count, 1, call)) < SHORTEST {
        count *= 2;
    }
    count
}

/// Times calls 0 and 1 in turn until so long has passed, at least three times each; whichever came last comes first the next time.
pub fn in_turn<T>(budget: Duration, mut call: impl FnMut(usize) -> T) -> [Time; 2] {
    let started = Instant::now();
    let count = at_once(&mut call);
    let mut times = [Vec::new(), Vec::new()];
    let mut order = [0, 1];
    while times[0].len() < 3 || started.elapsed() < budget {
        for which in order {
            times[which].push(taken(count, which, &mut call) / count as f64);
        }
        order.reverse();
    }
    times.map(|times| Time::of(times, count))
}
