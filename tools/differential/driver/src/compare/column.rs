//! A column: what the original says of it, and all calls over it.

use crate::c_api::{Estimates, Plan, Stats, ESTIMATES_WORDS, PLAN_WORDS, STATS_WORDS};
use crate::compare::{analysis, reading, writing};
use crate::job::Job;
use crate::original::ask;
use crate::reading::{chunk_of, ENCODINGS};
use crate::show;
use basalt_common::CompressionLevel;
use basalt_encoding::{
    analyze_integers, choose_integer_encoding, estimate_sizes, Cardinality, Encoding, EncodingPlan, IntegerStats,
    PlanReason, SizeEstimates, Sortedness, MAX_DICTIONARY_CARDINALITY,
};
use std::collections::HashSet;

/// Our reading walks along the codes once for every 16,384 entries, so that a foreign Dictionary of 2^24 would take minutes.
const LONGEST_FOREIGN: usize = 1 << 18;

/// The column's chunk in an encoding, as the original writes it.
pub struct Written {
    pub encoding: Encoding,
    pub chunk: Vec<u8>,
}

/// What the original says of a column.
pub struct Facts {
    /// What an analysis leaves in the scratch: "the distinct values rising (of more than 16,384, the first 16,384 met)".
    pub kept: Vec<i64>,
    /// There are more distinct values than these.
    pub too_many: bool,
    pub stats: [u64; STATS_WORDS],
    pub estimates: [u64; ESTIMATES_WORDS],
    /// The plans at the ten levels.
    pub plans: Vec<[u64; PLAN_WORDS]>,
}

/// Statistics, estimates, plans and chunks of the column, and the chunks read back.
pub fn column(job: &mut Job, column: &[i64]) {
    let facts = match ask(|| facts(column)) {
        Ok(facts) => facts,
        Err(message) => return job.tally.panicked(&message, column.len(), || show::keys(column)),
    };
    job.desk.hold_column(column);
    analysis::column(job, column, &facts);
    for encoding in ENCODINGS {
        match ask(|| chunk_of(column, encoding)) {
            Ok(chunk) => written(job, column, Written { encoding, chunk }, &facts),
            Err(message) => job.tally.panicked(&message, column.len(), || show::keys(column)),
        }
    }
}

/// The column that is held, written in one encoding, and the chunk read back.
fn written(job: &mut Job, column: &[i64], written: Written, facts: &Facts) {
    writing::column(job, column, &written, facts);
    let Written { encoding, chunk } = written;
    if encoding != Encoding::Dictionary || !facts.too_many || column.len() <= LONGEST_FOREIGN {
        reading::chunk(job, &chunk, &[0, encoding.as_u8()]);
    }
}

fn facts(column: &[i64]) -> Facts {
    let stats = analyze_integers(column);
    let estimates = estimate_sizes(&stats);
    let kept = stats.distinct_values().map_or_else(|| first_met(column), <[i64]>::to_vec);
    let plan = |level| choose_integer_encoding(&stats, CompressionLevel::new(level).expect("a level"));
    Facts {
        kept,
        too_many: stats.distinct_values().is_none(),
        stats: stats_of(&stats).words(),
        estimates: estimates_of(estimates).words(),
        plans: (0..=9).map(|level| plan_of(&stats, estimates, plan(level)).words()).collect(),
    }
}

/// The first 16,384 distinct values, rising.
fn first_met(column: &[i64]) -> Vec<i64> {
    let mut met = HashSet::new();
    for &key in column {
        if met.len() < MAX_DICTIONARY_CARDINALITY {
            met.insert(key);
        }
    }
    let mut kept: Vec<i64> = met.into_iter().collect();
    kept.sort_unstable();
    kept
}

fn stats_of(stats: &IntegerStats) -> Stats {
    Stats {
        count: stats.count as u64,
        first: stats.first,
        min: stats.min,
        max: stats.max,
        run_count: stats.run_count as u64,
        sortedness: match stats.sortedness {
            Sortedness::Constant => 0,
            Sortedness::Ascending => 1,
            Sortedness::Descending => 2,
            Sortedness::Unsorted => 3,
        },
        cardinality: stats.cardinality.value() as u64,
        cardinality_is_exact: matches!(stats.cardinality, Cardinality::Exact(_)).into(),
        value_span: stats.value_span,
        max_zigzag: stats.max_zigzag,
        varint_body_bytes: stats.varint_body_bytes as u64,
        run_length_body_bytes: stats.run_length_body_bytes as u64,
        delta_min: stats.delta_min,
        delta_max: stats.delta_max,
        delta_span: stats.delta_span,
    }
}

fn estimates_of(estimates: SizeEstimates) -> Estimates {
    let candidates = [
        Some(estimates.plain),
        Some(estimates.varint),
        Some(estimates.bit_packed),
        Some(estimates.frame_of_reference),
        Some(estimates.run_length),
        estimates.dictionary,
        estimates.delta,
    ];
    Estimates {
        lengths: candidates.map(|length| length.unwrap_or(0) as u64),
        available: candidates.map(|length| length.is_some().into()),
    }
}

fn plan_of(stats: &IntegerStats, estimates: SizeEstimates, plan: EncodingPlan) -> Plan {
    Plan {
        encoding: plan.encoding.as_u8().into(),
        estimated_bytes: plan.estimated_bytes as u64,
        plain_bytes: plan.plain_bytes as u64,
        reason: match plan.reason {
            PlanReason::Empty => 0,
            PlanReason::CompressionDisabled => 1,
            PlanReason::SmallestEstimate => 2,
            PlanReason::GainBelowThreshold => 3,
        },
        run_density: stats.run_density(),
        estimated_ratio: plan.estimated_ratio(),
        estimates: estimates_of(estimates),
    }
}
