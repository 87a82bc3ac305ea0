//! Times of two jobs that do the same, taken in turn, so that whatever else the
//! machine does meets both; of each the least of many rounds.
use std::hint::black_box;
use std::time::Instant;

/// One timed batch takes at least so long, in nanoseconds.
const BATCH: f64 = 200_000.0;

pub type Job<'a> = &'a mut dyn FnMut() -> u64;

fn batch(job: &mut dyn FnMut() -> u64, times: u32) -> f64 {
    let begin = Instant::now();
    for _ in 0..times {
        black_box(job());
    }
    begin.elapsed().as_nanos() as f64
}

/// How often a job goes into a batch.
fn times(job: &mut dyn FnMut() -> u64) -> u32 {
    let mut n = 1;
    while batch(job, n) < BATCH && n < 1 << 24 {
        n *= 2;
    }
    n
}

/// Nanoseconds of each job: the least of so many rounds.
pub fn least(rounds: u32, jobs: &mut [Job<'_>]) -> Vec<f64> {
    let n: Vec<u32> = jobs.iter_mut().map(|j| times(j)).collect();
    let mut best = vec![f64::MAX; jobs.len()];
    for round in 0..rounds as usize {
        for i in 0..jobs.len() {
            // each job comes first in turn
            let k = (i + round) % jobs.len();
            let took = batch(jobs[k], n[k]) / n[k] as f64;
            best[k] = best[k].min(took);
        }
    }
    best
}
