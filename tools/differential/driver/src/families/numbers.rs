//! Numbers about every power of two, and random ones of every width.

use crate::compare::analysis::NO_LEVELS;
use crate::compare::number::{minimum_gain, number};
use crate::job::{Job, Setting};

pub fn jobs(setting: Setting) -> usize {
    setting.of([1, 40, 800])
}

pub fn run(job: &mut Job) {
    if job.number == 0 {
        for bits in edges() {
            number(job, bits);
        }
        for level in (0..=9).chain(NO_LEVELS) {
            minimum_gain(job, level);
        }
    }
    for _ in 0..job.setting.of([200, 5_000, 5_000]) {
        let bits = job.source.any_width();
        number(job, bits);
        number(job, bits.wrapping_neg());
    }
}

/// Each power of two with its neighbours, and what these are with the other sign.
pub fn edges() -> impl Iterator<Item = u64> {
    (0..64).flat_map(|bit| {
        let power = 1u64 << bit;
        let near = [power - 1, power, power + 1];
        near.into_iter().chain(near.map(u64::wrapping_neg))
    })
}
