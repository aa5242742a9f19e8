//! The best time of a call, of several rounds.

use std::hint::black_box;
use std::time::{Duration, Instant};

/// Short rounds and many of them: on a busy machine some of them are not disturbed.
const ROUNDS: u32 = 1_500;
const ROUND: Duration = Duration::from_micros(300);
/// All rounds of a slow side take about this long.
const TIME: Duration = Duration::from_secs(4);

/// A side that can be timed: the time of so many calls.
pub type Timed<'a> = Box<dyn FnMut(u32) -> Duration + 'a>;

/// The best time of one call in nanoseconds. In each round every side has its turn, so that a busy
/// machine slows all of them; a slow side has fewer turns.
pub fn best(sides: &mut [Timed]) -> Vec<f64> {
    let once: Vec<Duration> = sides.iter_mut().map(warm_time).collect();
    let calls: Vec<u32> = once.iter().map(|one| ratio(ROUND, *one).clamp(1, 100_000)).collect();
    let every: Vec<u32> = once.iter().zip(&calls).map(|(one, calls)| turn(*one * *calls)).collect();
    let mut best = vec![f64::MAX; sides.len()];
    for round in 0..ROUNDS {
        for (n, side) in sides.iter_mut().enumerate().filter(|(n, _)| round % every[*n] == 0) {
            best[n] = best[n].min(side(calls[n]).as_nanos() as f64 / f64::from(calls[n]));
        }
    }
    best
}

/// The time of a call that is not the first.
fn warm_time(side: &mut Timed) -> Duration {
    side(1);
    (side(3) / 3).max(Duration::from_nanos(1))
}

/// A side of such rounds has its turn in every so many: three times at least.
fn turn(round: Duration) -> u32 {
    ROUNDS / ratio(TIME, round).clamp(3, ROUNDS)
}

fn ratio(whole: Duration, part: Duration) -> u32 {
    (whole.as_nanos() / part.as_nanos()).try_into().unwrap_or(u32::MAX)
}

pub fn timed<T>(work: impl FnOnce() -> T) -> (T, Duration) {
    let start = Instant::now();
    let result = black_box(work());
    let time = start.elapsed();
    (result, time)
}

/// What it costs to look at the clock around nothing.
pub fn clock_cost() -> f64 {
    let calls = 100_000;
    let sum = || (0..calls).map(|_| timed(|| ()).1).sum::<Duration>();
    (0..ROUNDS).map(|_| sum().as_nanos() as f64 / f64::from(calls)).fold(f64::MAX, f64::min)
}
