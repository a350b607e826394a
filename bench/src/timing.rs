//! How times are taken.

use std::time::Duration;

use crate::clock::processor_time;

/// Runs before the first that counts.
pub const WARM: usize = 3;
/// A short call is repeated until one measurement takes as long.
const LEAST: Duration = Duration::from_millis(2);

/// The processor time of one call, taken over so many.
pub fn time(calls: u32, mut call: impl FnMut()) -> Duration {
    let start = processor_time();
    for _ in 0..calls {
        call();
    }
    (processor_time() - start) / calls
}

/// How many calls last long enough to be timed.
pub fn calls_for(mut call: impl FnMut()) -> u32 {
    let once = time(1, &mut call).max(Duration::from_nanos(50));
    1 + (LEAST.as_nanos() / once.as_nanos()) as u32
}

pub fn median<T: Copy + Ord>(mut times: Vec<T>) -> T {
    times.sort_unstable();
    times[times.len() / 2]
}

pub fn micros(time: Duration) -> String {
    format!("{:.1}", time.as_nanos() as f64 / 1_000.0)
}
