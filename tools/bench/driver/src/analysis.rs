//! Columns planned: statistics, distinct values, estimates and the choice, by one call. Before a column is timed, both sides must plan
//! the same.

use crate::options::Options;
use crate::ours;
use crate::row::Row;
use crate::shapes::{Shape, HARD, SHAPES};
use crate::timing::{alternate, Times};
use basalt_common::CompressionLevel;
use basalt_encoding::{
    analyze, analyze_integers, choose_integer_encoding, estimate_sizes, Encoding, EncodingPlan, IntegerStats,
    MAX_DICTIONARY_CARDINALITY,
};
use std::hint::black_box;

/// The sizes of columns beside the one that is asked for.
const SIZES: [usize; 4] = [1, 16, 256, 20_000];

/// In a round a shorter column is planned again and again, until so many keys are seen: a clock cannot time a few.
const KEYS_A_ROUND: usize = 10_000;

const LEVEL: u8 = 6;

/// No column is to cost more than twice the original's time.
const WANTED: f64 = 0.5;

/// Every shape, in each of the sizes.
pub fn rows(options: &Options) -> Vec<Row> {
    let mut sizes: Vec<usize> = SIZES.into_iter().filter(|&size| size < options.count).collect();
    sizes.push(options.count);
    let shapes = SHAPES.iter().chain(&HARD);
    shapes.flat_map(|shape| sizes.iter().map(|&size| row(shape, size, options.rounds))).collect()
}

fn row(shape: &Shape, size: usize, rounds: usize) -> Row {
    Row {
        operation: "plan",
        encoding: None,
        input: shape.name.to_string(),
        count: size,
        times: plan(&shape.column(size), rounds).times,
        wanted: Some(WANTED),
    }
}

/// The encoding that both sides plan, and how long they take.
pub struct Planned {
    pub encoding: Encoding,
    pub times: Times,
}

/// The original makes its set of distinct values in each call and frees it: both are part of its time. Ours is lent a scratch.
pub fn plan(column: &[i64], rounds: usize) -> Planned {
    let level = CompressionLevel::new(LEVEL).unwrap();
    let mut scratch = vec![0; MAX_DICTIONARY_CARDINALITY];
    let mut plan = ours::Plan::default();
    let encoding = same_encoding(column, level, &mut scratch, &mut plan);
    let repeats = column.len().max(KEYS_A_ROUND) / column.len();
    let times = alternate(
        rounds,
        repeats * column.len(),
        || {
            for _ in 0..repeats {
                black_box(analyze(black_box(column), level));
            }
        },
        || {
            for _ in 0..repeats {
                black_box(ours::analyze(black_box(column), u32::from(LEVEL), &mut scratch, &mut plan)).unwrap();
                black_box(&plan);
            }
        },
    );
    Planned { encoding, times }
}

/// The encoding that both sides plan. They must agree on the whole plan, on its estimates and on the distinct values.
fn same_encoding(column: &[i64], level: CompressionLevel, scratch: &mut [i64], found: &mut ours::Plan) -> Encoding {
    let stats = analyze_integers(column);
    let wanted = choose_integer_encoding(&stats, level);
    let held = ours::analyze(column, u32::from(LEVEL), scratch, found).unwrap();
    if let Some(distinct) = stats.distinct_values() {
        assert!(scratch[..held] == *distinct);
    }
    assert_same_choice(&wanted, &stats, found);
    assert_same_estimates(&stats, &found.estimates);
    wanted.encoding
}

fn assert_same_choice(wanted: &EncodingPlan, stats: &IntegerStats, found: &ours::Plan) {
    assert_eq!(found.encoding, u64::from(wanted.encoding.as_u8()));
    assert_eq!(found.estimated_bytes, wanted.estimated_bytes as u64);
    assert_eq!(found.plain_bytes, wanted.plain_bytes as u64);
    assert_eq!(found.reason, wanted.reason as u64);
    assert_eq!(found.run_density.to_bits(), stats.run_density().to_bits());
    assert_eq!(found.estimated_ratio.to_bits(), wanted.estimated_ratio().to_bits());
}

fn assert_same_estimates(stats: &IntegerStats, found: &ours::Estimates) {
    let mut wanted = ours::Estimates::default();
    for (encoding, length) in estimate_sizes(stats).candidates() {
        let place = usize::from(encoding.as_u8()) - 1;
        (wanted.lengths[place], wanted.available[place]) = (length as u64, 1);
    }
    assert_eq!((found.lengths, found.available), (wanted.lengths, wanted.available));
}
