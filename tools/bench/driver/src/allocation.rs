//! What the original's calls pay for the new Vec that they return.

use crate::timing::{once, PASSES};
use std::hint::black_box;

const PAGE: usize = 4096;

/// What a new Vec of so many values costs, in nanoseconds a value: made, touched once a page, and freed.
pub fn of_new_vec(count: usize, rounds: usize) -> f64 {
    let mut run = || {
        let mut values: Vec<u64> = Vec::with_capacity(count);
        for place in values.spare_capacity_mut().iter_mut().step_by(PAGE / size_of::<u64>()) {
            place.write(0);
        }
        black_box(&mut values);
    };
    (0..PASSES * rounds).map(|_| once(count, &mut run)).fold(f64::MAX, f64::min)
}
