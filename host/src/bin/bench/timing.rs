//! Times of calls, as medians.

use std::hint::black_box;
use std::time::{Duration, Instant};

/// How often each measurement is taken: an odd number, so that one of them is the median.
pub const RUNS: usize = 51;

/// How long one measurement lasts at least, and as a rule at most twice as long. Short ones are seldom interrupted.
const RUN_LENGTH: Duration = Duration::from_millis(1);

/// How often it is tried whether so many calls fill a measurement. The fastest try counts, since others may be interrupted.
const TRIES: usize = 5;

/// A call that is timed.
pub type Work<'a> = Box<dyn FnMut() + 'a>;

/// A call whose result is dropped, which is timed with it.
pub fn work<'a, A>(mut call: impl FnMut() -> A + 'a) -> Work<'a> {
    Box::new(move || {
        black_box(call());
    })
}

/// The median time of each call, in nanoseconds. They take turns, so that what slows the machine slows all of them.
pub fn medians<const N: usize>(mut works: [Work<'_>; N]) -> [f64; N] {
    let calls = works.each_mut().map(calls);
    let mut times = [const { Vec::new() }; N];
    for _ in 0..RUNS {
        for ((work, calls), times) in works.iter_mut().zip(calls).zip(&mut times) {
            times.push(per_call(work, calls));
        }
    }
    times.map(median)
}

/// How many calls fill one measurement.
fn calls(work: &mut Work<'_>) -> u32 {
    let mut count = 1;
    loop {
        let tries = (0..TRIES).map(|_| per_call(work, count));
        let fastest = tries.fold(f64::INFINITY, f64::min);
        if fastest * f64::from(count) >= RUN_LENGTH.as_nanos() as f64 {
            return count;
        }
        count *= 2;
    }
}

/// The time of one call among `count`, in nanoseconds.
fn per_call(work: &mut Work<'_>, count: u32) -> f64 {
    let start = Instant::now();
    for _ in 0..count {
        work();
    }
    start.elapsed().as_nanos() as f64 / f64::from(count)
}

fn median(mut times: Vec<f64>) -> f64 {
    times.sort_by(f64::total_cmp);
    times[times.len() / 2]
}

#[cfg(test)]
mod tests {
    use super::*;

    #[test]
    fn the_middle_time_counts() {
        assert_eq!(RUNS % 2, 1);
        assert_eq!(median(vec![9.0, 1.0, 5.0, 2.0, 7.0]), 5.0);
    }
}
