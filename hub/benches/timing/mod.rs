//! The time of a call: the fastest of many short rounds, which other programs on the machine disturb least.

use std::{
    hint::black_box,
    time::{Duration, Instant},
};

/// How times are taken, for the head of a benchmark's output.
pub const HOW: &str =
    "the fastest round of 0.1 s of rounds of 1 ms or one call; a call of more than 0.3 s once";

const ROUND: Duration = Duration::from_millis(1);

/// As long as rounds are done.
pub const ALL: Duration = Duration::from_millis(100);

/// What the call gives, and the nanoseconds it takes, by rounds for so long; a call of three times as long once.
pub fn timed<T>(all: Duration, mut call: impl FnMut() -> T) -> (T, f64) {
    let start = Instant::now();
    let result = black_box(call());
    let first = start.elapsed();
    let mut fastest = first.as_nanos() as f64;
    if first >= 3 * all {
        return (result, fastest);
    }
    let calls = (ROUND.as_nanos() / first.as_nanos().max(20)).max(1);
    let start = Instant::now();
    while start.elapsed() < all {
        let round = Instant::now();
        for _ in 0..calls {
            black_box(call());
        }
        fastest = fastest.min(round.elapsed().as_nanos() as f64 / calls as f64);
    }
    (result, fastest)
}
