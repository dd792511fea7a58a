//! Times: the best of several passes over a set, the jobs taking turns.

use crate::jobs::{Areas, JOBS};
use crate::sets::Case;
use std::hint::black_box;
use std::time::{Duration, Instant};

/// Passes over a set, for each job.
pub const PASSES: usize = 9;

/// The best time of each job over all cases.
pub fn best(cases: &[&Case]) -> [Duration; JOBS.len()] {
    let mut best = [Duration::MAX; JOBS.len()];
    let mut areas = Areas::new();
    for _ in 0..PASSES {
        for (slot, (_, job)) in best.iter_mut().zip(JOBS) {
            let start = Instant::now();
            for case in cases {
                black_box(job(black_box(case), &mut areas));
            }
            *slot = (*slot).min(start.elapsed());
        }
    }
    best
}

/// The best time of a job done once for each of several things.
pub fn best_each<T>(all: &[T], mut job: impl FnMut(&T) -> u64) -> Duration {
    let mut pass = || {
        let start = Instant::now();
        for one in all {
            black_box(job(black_box(one)));
        }
        start.elapsed()
    };
    (0..PASSES).map(|_| pass()).min().unwrap_or(Duration::MAX)
}
