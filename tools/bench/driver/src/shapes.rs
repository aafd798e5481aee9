//! Columns of ten shapes, and of three that are hard to plan: random from a fixed seed, so that each run has the same.

use crate::inputs::Random;

#[derive(Clone, Copy)]
pub struct Shape {
    pub name: &'static str,
    make: fn(&mut Random, usize) -> Vec<i64>,
}

pub const SORTED_IDS: Shape = Shape { name: "sorted ids", make: sorted_ids };
pub const SMALL: Shape = Shape { name: "0 to 199", make: small };
pub const AROUND_ZERO: Shape = Shape { name: "-100 to 99", make: around_zero };
pub const RANDOM: Shape = Shape { name: "random 64-bit", make: random_keys };
pub const LONG_RUNS: Shape = Shape { name: "long runs", make: long_runs };
pub const ONE_THOUSAND: Shape = Shape { name: "1,000 distinct, wide", make: one_thousand };
pub const TEN_THOUSAND: Shape = Shape { name: "10,000 distinct, wide", make: ten_thousand };
pub const TIMESTAMPS: Shape = Shape { name: "timestamps with jitter", make: timestamps };
pub const MOSTLY_SMALL: Shape = Shape { name: "mostly small", make: mostly_small };
pub const MIXED: Shape = Shape { name: "mixed stretches", make: mixed };

/// Each encoding is planned for one of them or more.
pub const SHAPES: [Shape; 10] =
    [SORTED_IDS, SMALL, AROUND_ZERO, RANDOM, LONG_RUNS, ONE_THOUSAND, TEN_THOUSAND, TIMESTAMPS, MOSTLY_SMALL, MIXED];

pub const ONE_SLOT: Shape = Shape { name: "16,000 distinct, one slot", make: one_slot };

/// Shapes that are hard to collect the distinct values of: our table of the keys met has a slot for each (`slot_of` of the crate
/// distinct), and here all keys have one slot, or they come in an order in which each goes before those that are held.
pub const HARD: [Shape; 3] = [
    ONE_SLOT,
    Shape { name: "20,000 distinct, one slot", make: one_slot_too_many },
    Shape { name: "20,000 distinct, falling", make: falling },
];

impl Shape {
    pub fn column(&self, count: usize) -> Vec<i64> {
        (self.make)(&mut Random::new(), count)
    }
}

/// Rising by 1 to 10.
fn sorted_ids(random: &mut Random, count: usize) -> Vec<i64> {
    let mut id = 1_000_000;
    (0..count)
        .map(|_| {
            id += 1 + random.below(10);
            id
        })
        .collect()
}

fn small(random: &mut Random, count: usize) -> Vec<i64> {
    (0..count).map(|_| random.below(200)).collect()
}

fn around_zero(random: &mut Random, count: usize) -> Vec<i64> {
    (0..count).map(|_| random.below(200) - 100).collect()
}

fn random_keys(random: &mut Random, count: usize) -> Vec<i64> {
    (0..count).map(|_| random.next() as i64).collect()
}

/// Runs of 500 to 1,500 values below 1,000.
fn long_runs(random: &mut Random, count: usize) -> Vec<i64> {
    let mut column = Vec::with_capacity(count);
    while column.len() < count {
        let length = (500 + random.below(1_001) as usize).min(count - column.len());
        column.resize(column.len() + length, random.below(1_000));
    }
    column
}

/// One of so many keys of any size, each as often as any other.
fn one_of(distinct: usize, random: &mut Random, count: usize) -> Vec<i64> {
    let keys = random_keys(random, distinct);
    (0..count).map(|_| keys[random.below(distinct as u64) as usize]).collect()
}

fn one_thousand(random: &mut Random, count: usize) -> Vec<i64> {
    one_of(1_000, random, count)
}

fn ten_thousand(random: &mut Random, count: usize) -> Vec<i64> {
    one_of(10_000, random, count)
}

/// Microseconds: one every millisecond, up to 200 microseconds late.
fn timestamps(random: &mut Random, count: usize) -> Vec<i64> {
    (0..count).map(|place| 1_700_000_000_000_000 + 1_000 * place as i64 + random.below(200)).collect()
}

/// From -50 to 49, but one of 20 below 2^40.
fn mostly_small(random: &mut Random, count: usize) -> Vec<i64> {
    (0..count)
        .map(|_| if random.below(20) == 0 { random.of_width(40) as i64 } else { random.below(100) - 50 })
        .collect()
}

/// Stretches of 1 to 500 keys, each of another shape, drawn at random: what no encoding suits, and no branch foresees.
fn mixed(random: &mut Random, count: usize) -> Vec<i64> {
    let makes = [sorted_ids, around_zero, random_keys, long_runs, timestamps, mostly_small];
    let mut column = Vec::with_capacity(count);
    while column.len() < count {
        let length = (1 + random.below(500) as usize).min(count - column.len());
        let make = makes[random.below(makes.len() as u64) as usize];
        column.extend(make(random, length));
    }
    column
}

/// A multiple of 2^32 - 1 has halves whose sum is 2^32 - 1, from which the slot is made.
fn one_slot(random: &mut Random, count: usize) -> Vec<i64> {
    (0..count).map(|_| 0xffff_ffff * random.below(16_000)).collect()
}

fn one_slot_too_many(random: &mut Random, count: usize) -> Vec<i64> {
    (0..count).map(|_| 0xffff_ffff * random.below(20_000)).collect()
}

fn falling(_: &mut Random, count: usize) -> Vec<i64> {
    (0..count).map(|place| 20_000 - (place % 20_000) as i64).collect()
}
