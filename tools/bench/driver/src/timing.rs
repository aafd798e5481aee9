//! The clock.

use std::time::Instant;

/// A table is gone through so often, so that a disturbance of some seconds does not meet all rounds of a row.
pub const PASSES: usize = 3;

/// The best time of each side, in nanoseconds a value.
pub struct Times {
    pub original: f64,
    pub ours: f64,
}

impl Times {
    pub fn keep_best(&mut self, other: &Times) {
        self.original = self.original.min(other.original);
        self.ours = self.ours.min(other.ours);
    }
}

/// Runs both sides in turn, so that whatever else the machine does meets both.
pub fn alternate(rounds: usize, count: usize, mut original: impl FnMut(), mut ours: impl FnMut()) -> Times {
    let mut best = Times { original: f64::MAX, ours: f64::MAX };
    for _ in 0..rounds {
        best.keep_best(&Times { original: once(count, &mut original), ours: once(count, &mut ours) });
    }
    best
}

/// The time of one run, in nanoseconds a value.
pub fn once(count: usize, run: &mut impl FnMut()) -> f64 {
    let start = Instant::now();
    run();
    start.elapsed().as_nanos() as f64 / count as f64
}
