//! A range of seeds compared on all processors.

use crate::cases::{self, Kind};
use crate::checks::compare_check;
use crate::difference::Difference;
use crate::picks::compare_pick;
use families::Rng;
use std::ops::Range;
use std::sync::atomic::{AtomicU64, Ordering};
use std::thread;

/// How a run came out.
#[derive(Clone, Copy, Debug, Default, PartialEq, Eq)]
pub struct Tally {
    /// How often each number was answered.
    pub answers: [u64; 14],
    /// How often the plain walk was too long to compare.
    pub skipped: u64,
}

impl Tally {
    fn count(&mut self, number: Option<u8>) {
        match number {
            Some(number) => self.answers[usize::from(number)] += 1,
            None => self.skipped += 1,
        }
    }

    fn add(&mut self, other: Tally) {
        for (sum, count) in self.answers.iter_mut().zip(other.answers) {
            *sum += count;
        }
        self.skipped += other.skipped;
    }
}

/// Seeds that a thread takes at a time.
const PORTION: u64 = 64;

/// Compares the texts of these seeds; the tally, or the first difference that a thread met.
pub fn run(kind: Kind, seeds: Range<u64>) -> Result<Tally, Box<Difference>> {
    let next = AtomicU64::new(seeds.start);
    let threads = thread::available_parallelism().map_or(1, usize::from);
    thread::scope(|scope| {
        let workers: Vec<_> = (0..threads)
            .map(|_| scope.spawn(|| work(kind, &next, seeds.end)))
            .collect();
        let mut tally = Tally::default();
        for worker in workers {
            tally.add(worker.join().expect("a worker's own fault")?);
        }
        Ok(tally)
    })
}

/// Compares portions of seeds until none is left.
fn work(kind: Kind, next: &AtomicU64, end: u64) -> Result<Tally, Box<Difference>> {
    let mut tally = Tally::default();
    loop {
        let start = next.fetch_add(PORTION, Ordering::Relaxed);
        if start >= end {
            return Ok(tally);
        }
        for seed in start..end.min(start + PORTION) {
            tally.count(compare(kind, seed)?);
        }
    }
}

/// Compares the case of a seed; the number, if the case isn't skipped.
fn compare(kind: Kind, seed: u64) -> Result<Option<u8>, Box<Difference>> {
    let text = cases::text(kind, seed);
    let mut rng = Rng::new(!seed);
    match kind {
        Kind::Good | Kind::Damaged => compare_pick(&text, cases::lent(&mut rng), &mut rng),
        Kind::Sheets => {
            let sheet = cases::sheet(&text, seed);
            let work = cases::work(&mut rng);
            compare_check(&text, &sheet, work, &mut rng).map(Some)
        }
    }
}
