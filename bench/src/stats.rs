//! Shares of a sorted list, and times.

use std::ffi::{c_int, c_long};
use std::time::Instant;

/// Of a hundred.
pub const MEDIAN: usize = 50;
pub const NINETY_NINTH: usize = 99;
pub const WORST: usize = 100;

/// The entry of a sorted list that so many of a hundred do not exceed; of two middle ones the higher is the median.
pub fn at<T: Copy>(sorted: &[T], share: usize) -> Option<T> {
    let place = if share == MEDIAN { sorted.len() / 2 } else { (sorted.len() * share).div_ceil(100).saturating_sub(1) };
    sorted.get(place).copied()
}

#[repr(C)]
struct Clock {
    seconds: i64,
    nanoseconds: c_long,
}

extern "C" {
    fn clock_gettime(clock: c_int, time: *mut Clock) -> c_int;
}

/// The clock of what this process has taken of the processors.
const PROCESS: c_int = 2;

/// Seconds that this process has taken so far; those that it waited for others are not in it.
pub fn processor_seconds() -> f64 {
    let mut now = Clock { seconds: 0, nanoseconds: 0 };
    assert_eq!(unsafe { clock_gettime(PROCESS, &mut now) }, 0, "a clock");
    now.seconds as f64 + now.nanoseconds as f64 / 1e9
}

/// A run that takes longer is not repeated.
pub const LONG: f64 = 0.25;

/// The least time of up to three runs, in seconds; one if it is long.
pub fn timed<T>(mut work: impl FnMut() -> T) -> (T, f64) {
    let mut least = f64::MAX;
    for _ in 0..2 {
        let began = Instant::now();
        let result = work();
        least = least.min(began.elapsed().as_secs_f64());
        if least > LONG {
            return (result, least);
        }
    }
    let began = Instant::now();
    let result = work();
    (result, least.min(began.elapsed().as_secs_f64()))
}
