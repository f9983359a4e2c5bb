//! Least times of two calls that are made in turn.

use std::time::{Duration, Instant};

/// How long a batch of calls takes at least, so that reading the clock does not count.
const BATCH: Duration = Duration::from_micros(25);

/// How long both calls are timed, and how often at least.
const TIME: Duration = Duration::from_millis(600);
const ROUNDS: usize = 40;

/// The least time of each of the calls in nanoseconds, over many rounds of a batch of each. What
/// else runs on the machine can only add to a time.
pub fn least(mut first: impl FnMut() -> bool, mut second: impl FnMut() -> bool) -> (f64, f64) {
    let calls = (calls_in_batch(&mut first), calls_in_batch(&mut second));
    let mut times = (f64::MAX, f64::MAX);
    let start = Instant::now();
    let mut rounds = 0;
    while rounds < ROUNDS || start.elapsed() < TIME {
        times.0 = times.0.min(call_time(calls.0, &mut first));
        times.1 = times.1.min(call_time(calls.1, &mut second));
        rounds += 1;
    }
    times
}

fn calls_in_batch(call: &mut impl FnMut() -> bool) -> u32 {
    let long = |calls: &u32| batch_time(*calls, call) >= BATCH;
    let mut doubled = (0..).map(|power| 1 << power);
    doubled.find(long).expect("every call takes some time")
}

fn call_time(calls: u32, call: &mut impl FnMut() -> bool) -> f64 {
    batch_time(calls, call).as_nanos() as f64 / f64::from(calls)
}

fn batch_time(calls: u32, call: &mut impl FnMut() -> bool) -> Duration {
    let start = Instant::now();
    for _ in 0..calls {
        call();
    }
    start.elapsed()
}
