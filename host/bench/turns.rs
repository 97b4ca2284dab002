//! Times of two that do the same, turn about.

use std::time::{Duration, Instant};

/// The least times of the library and of a plain version over all rounds. Each
/// round runs both, the one that was first before now second.
pub fn least(
    rounds: usize,
    mut library: impl FnMut() -> Duration,
    mut plain: impl FnMut() -> Duration,
) -> (Duration, Duration) {
    let (mut of_library, mut of_plain) = (Duration::MAX, Duration::MAX);
    for round in 0..rounds {
        for turn in 0..2 {
            if (round + turn) % 2 == 0 {
                of_library = library().min(of_library);
            } else {
                of_plain = plain().min(of_plain);
            }
        }
    }
    (of_library, of_plain)
}

/// What a body takes.
pub fn time(body: impl FnOnce()) -> Duration {
    let start = Instant::now();
    body();
    start.elapsed()
}

/// Nanoseconds for each of `number` equal parts.
pub fn each(time: Duration, number: usize) -> f64 {
    time.as_nanos() as f64 / number as f64
}
