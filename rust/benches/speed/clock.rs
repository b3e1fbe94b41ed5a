//! Takes the time of several ways to do one job.

use std::time::Instant;

pub const BATCHES: usize = 15;
const CALLS: usize = 40;

/// Nanoseconds an entry.
#[derive(Clone, Copy)]
pub struct Taken {
    pub median: f64,
    pub least: f64,
}

/// The time of each way, in batches that take turns, so that a busy moment of the machine meets all alike.
pub fn time<F: FnMut()>(entries: usize, ways: &mut [F]) -> Vec<Taken> {
    let mut taken = vec![[0.0; BATCHES]; ways.len()];
    for way in &mut *ways {
        way(); // warms the caches
    }
    for batch in 0..BATCHES {
        for (way, taken) in ways.iter_mut().zip(&mut taken) {
            let start = Instant::now();
            for _ in 0..CALLS {
                way();
            }
            taken[batch] = start.elapsed().as_nanos() as f64 / (CALLS * entries) as f64;
        }
    }
    let sorted = taken.into_iter().map(|mut batches| {
        batches.sort_by(f64::total_cmp);
        Taken {
            median: batches[BATCHES / 2],
            least: batches[0],
        }
    });
    sorted.collect()
}
