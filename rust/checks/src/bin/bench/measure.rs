//! Times of contestants that take turns.

use std::time::{Duration, Instant};

/// How long is measured.
pub struct Effort {
    /// Odd, so that there is a median.
    pub batches: usize,
    pub batch: Duration,
    pub warm_up: Duration,
}

pub const FULL: Effort = Effort {
    batches: 201,
    batch: Duration::from_millis(2),
    warm_up: Duration::from_millis(300),
};
pub const QUICK: Effort = Effort {
    batches: 5,
    batch: Duration::from_micros(200),
    warm_up: Duration::from_millis(2),
};

/// The median time of a run of each contestant, in microseconds. They take
/// turns batch by batch, so that a slower spell of the machine meets them all.
pub fn measure<const N: usize>(effort: &Effort, mut run: impl FnMut(usize)) -> [f64; N] {
    let runs: [usize; N] =
        std::array::from_fn(|contestant| runs_in_batch(effort, || run(contestant)));
    let mut times = [const { Vec::new() }; N];
    for _ in 0..effort.batches {
        for (contestant, times) in times.iter_mut().enumerate() {
            let start = Instant::now();
            for _ in 0..runs[contestant] {
                run(contestant);
            }
            times.push(start.elapsed().as_secs_f64() / runs[contestant] as f64);
        }
    }
    times.map(|mut times| {
        times.sort_by(f64::total_cmp);
        times[times.len() / 2] * 1e6
    })
}

/// Warms up, and finds how many runs fill a batch.
fn runs_in_batch(effort: &Effort, mut run: impl FnMut()) -> usize {
    let start = Instant::now();
    let mut runs = 0;
    while start.elapsed() < effort.warm_up {
        run();
        runs += 1;
    }
    let share = effort.batch.as_secs_f64() / start.elapsed().as_secs_f64();
    ((runs as f64 * share) as usize).max(1)
}
