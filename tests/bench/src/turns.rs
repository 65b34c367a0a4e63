//! Runs that take turns.

use std::time::{Duration, Instant};

/// The microseconds that a run takes.
pub fn timed(run: impl FnOnce()) -> f64 {
    let start = Instant::now();
    run();
    start.elapsed().as_secs_f64() * 1e6
}

/// The medians of K runs that take turns, for 2 seconds or 401 turns, and 11 turns at least; and how many turns they took.
pub fn medians<const K: usize>(mut turn: impl FnMut() -> [f64; K]) -> ([f64; K], usize) {
    let mut times = [(); K].map(|()| Vec::new());
    let started = Instant::now();
    let mut turns = 0;
    while turns < 11 || (turns < 401 && started.elapsed() < Duration::from_secs(2)) {
        for (times, time) in times.iter_mut().zip(turn()) {
            times.push(time);
        }
        turns += 1;
    }
    let medians = times.map(|mut times| {
        times.sort_by(f64::total_cmp);
        times[turns / 2]
    });
    (medians, turns)
}
