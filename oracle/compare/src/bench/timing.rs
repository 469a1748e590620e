//! The time of a call.

use std::hint::black_box;
use std::time::{Duration, Instant};

const ROUNDS: usize = 21;
/// How long a round takes about, so that a clock's own time does not count.
const ROUND: Duration = Duration::from_millis(5);

/// The times of a call of each, in rounds that take turns, since the machine may have other work.
pub fn medians<const N: usize>(works: [&dyn Fn() -> u32; N]) -> [Duration; N] {
    let repeats = works.map(|work| {
        let once = repeated(1, work).as_nanos().max(1);
        (ROUND.as_nanos() / once).clamp(1, 10_000) as u32
    });
    in_turns(ROUNDS, repeats, works).map(median)
}

/// The least time and the median of so many calls of each, which take turns.
pub fn best_and_median<const N: usize>(
    runs: usize,
    works: [&dyn Fn() -> u32; N],
) -> [[Duration; 2]; N] {
    in_turns(runs, [1; N], works)
        .map(|times| [*times.iter().min().unwrap_or(&ROUND), median(times)])
}

/// The times of a call of each in each round.
fn in_turns<const N: usize>(
    count: usize,
    repeats: [u32; N],
    works: [&dyn Fn() -> u32; N],
) -> [Vec<Duration>; N] {
    let mut rounds = [const { Vec::new() }; N];
    for _ in 0..count {
        for (i, work) in works.iter().enumerate() {
            rounds[i].push(repeated(repeats[i], work) / repeats[i]);
        }
    }
    rounds
}

pub fn median(mut times: Vec<Duration>) -> Duration {
    times.sort();
    times[times.len() / 2]
}

/// The time of so many calls.
pub fn repeated<T>(repeats: u32, work: impl Fn() -> T) -> Duration {
    let start = Instant::now();
    for _ in 0..repeats {
        black_box(work());
    }
    start.elapsed()
}
