//! Columns of every shape: those of the generator of stored answers, and some made for limits of ours.

use crate::compare::column::column;
use crate::job::{Job, Setting};
use crate::numbers::Source;
use crate::shapes;
use std::ops::RangeInclusive;

/// Lengths about a limit, and how often each is gone through in each setting.
struct Lengths {
    range: RangeInclusive<usize>,
    rounds: [usize; 3],
}

const fn lengths(range: RangeInclusive<usize>, rounds: [usize; 3]) -> Lengths {
    Lengths { range, rounds }
}

const LENGTHS: [Lengths; 11] = [
    lengths(0..=20, [1, 8, 200]),
    lengths(30..=34, [0, 4, 100]),
    lengths(63..=66, [0, 4, 100]),
    // the varint of the count has a second byte; a block of deltas is full, and the next one begun
    lengths(126..=131, [1, 8, 150]),
    lengths(254..=259, [0, 4, 100]),
    // distinct keys are collected in another way above 384 and 4,096 keys
    lengths(382..=387, [0, 2, 60]),
    lengths(1_023..=1_026, [0, 1, 20]),
    lengths(4_094..=4_098, [0, 1, 12]),
    // the varint of the count has a third byte; so many distinct keys are kept
    lengths(16_383..=16_384, [0, 1, 5]),
    lengths(16_385..=16_386, [0, 0, 5]),
    lengths(65_535..=65_537, [0, 0, 2]),
];

pub fn jobs(setting: Setting) -> usize {
    all_lengths(setting).count()
}

fn all_lengths(setting: Setting) -> impl Iterator<Item = usize> {
    LENGTHS.iter().flat_map(move |Lengths { range, rounds }| {
        let rounds = setting.of(*rounds);
        range.clone().flat_map(move |length| std::iter::repeat_n(length, rounds))
    })
}

pub fn run(job: &mut Job) {
    let length = all_lengths(job.setting).nth(job.number).expect("a job");
    for keys in columns(length, &mut job.source) {
        column(job, &keys);
    }
}

/// A column of each shape.
pub fn columns(length: usize, source: &mut Source) -> Vec<Vec<i64>> {
    let ours = [runs, block_steps, one_jump, one_slot, exact_width, wide_entries, falling, about_the_ends];
    let ours = ours.map(|shape| shape(length, source));
    shapes::shapes(length, source).into_iter().chain(ours).collect()
}

/// Runs of lengths about one byte and two as a varint.
fn runs(length: usize, source: &mut Source) -> Vec<i64> {
    let mut keys = Vec::with_capacity(length);
    while keys.len() < length {
        let run = [1, 2, 3, 126, 127, 128, 129][source.below(7) as usize].min(length - keys.len());
        keys.resize(keys.len() + run, source.any_width() as i64);
    }
    keys
}

/// A step that changes from one block of deltas to the next.
fn block_steps(length: usize, source: &mut Source) -> Vec<i64> {
    let (mut key, mut step) = (source.any_width() as i64, 0i64);
    (0..length)
        .map(|place| {
            if place % 128 == 0 {
                step = source.any_width() as i64;
            }
            key = key.wrapping_add(step);
            key
        })
        .collect()
}

/// Steps of one, but for a jump about the edge of a block of deltas.
fn one_jump(length: usize, source: &mut Source) -> Vec<i64> {
    let jump = 126 + source.below(5) as i64 + 128 * source.below(1 + length as u64 / 128) as i64;
    let height = source.any_width() as i64;
    (0..length as i64).map(|place| if place < jump { place } else { place.wrapping_add(height) }).collect()
}

/// Multiples of 2^32 - 1: the halves of each have the same sum, so that all keys have one slot in our table of keys that were met.
fn one_slot(length: usize, source: &mut Source) -> Vec<i64> {
    (0..length).map(|_| 0xffff_ffff * source.below(1 + length as u64) as i64).collect()
}

/// Keys from a least one on that need just so many bits.
fn exact_width(length: usize, source: &mut Source) -> Vec<i64> {
    let least = source.any_width() as i64;
    let drop = source.below(64) as u32;
    let most = u64::MAX >> drop;
    let offset = |source: &mut Source| [0, most, source.word() >> drop][source.below(3) as usize];
    (0..length).map(|_| least.wrapping_add(offset(source) as i64)).collect()
}

/// Some keys of any width, each of them often.
fn wide_entries(length: usize, source: &mut Source) -> Vec<i64> {
    let entries: Vec<i64> = (0..1 + source.below(300)).map(|_| source.any_width() as i64).collect();
    (0..length).map(|_| entries[source.below(entries.len() as u64) as usize]).collect()
}

/// Each key goes before all that were met.
fn falling(length: usize, source: &mut Source) -> Vec<i64> {
    let mut key = source.word() as i64 >> 2;
    (0..length)
        .map(|_| {
            key -= source.below(3) as i64;
            key
        })
        .collect()
}

/// About the least and the greatest key, so that deltas wrap.
fn about_the_ends(length: usize, source: &mut Source) -> Vec<i64> {
    (0..length).map(|_| [i64::MIN, i64::MAX - 3][source.below(2) as usize] + source.below(4) as i64).collect()
}
