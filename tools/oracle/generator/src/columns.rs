//! `columns.bin`: columns with their chunks, statistics, estimates and plans.

use basalt_common::CompressionLevel;
use basalt_encoding::{
    analyze_integers, choose_integer_encoding, estimate_sizes, Cardinality, Encoding, EncodingPlan, IntegerStats,
    PlanReason, Sortedness, MAX_DICTIONARY_CARDINALITY,
};

use crate::descriptor::{self, Descriptor};
use crate::file::{AnswerFile, Record};
use crate::numbers::{checksum, checksum_keys, Source};
use crate::reading::{chunk_of, read, write, ENCODINGS};
use crate::shapes;

const SEED: u64 = 0x636f_6c75_6d6e_0001;

const STORED: u8 = 1;
const DESCRIBED: u8 = 2;
const NOT_WRITTEN: u8 = 3;

pub fn file() -> AnswerFile {
    let mut file = AnswerFile::new(
        "columns",
        SEED,
        &[
            (STORED, "a column, stored"),
            (DESCRIBED, "a column, described"),
            (NOT_WRITTEN, "an encoding that writes no keys"),
        ],
    );
    for column in shapes::all(&mut Source::new(SEED)) {
        file.push(stored_record(&column));
    }
    for descriptor in descriptor::all() {
        file.push(described_record(&descriptor));
    }
    for encoding in [Encoding::PlainBytes, Encoding::ByteLz] {
        file.push(not_written_record(encoding));
    }
    file
}

fn stored_record(column: &[i64]) -> Record {
    let stats = analyze_integers(column);
    let distinct = stats.distinct_values().expect("a short column");
    let mut record = Record::new(STORED);
    write_facts(&mut record, &stats);
    for chunk in chunks(column, &stats) {
        record.u32(chunk.len());
        record.bytes(&chunk);
    }
    record.u32(distinct.len());
    record.keys(distinct);
    record
}

fn described_record(descriptor: &Descriptor) -> Record {
    let column = descriptor.column();
    let stats = analyze_integers(&column);
    let distinct = stats.distinct_values().unwrap_or(&[]);
    let mut record = Record::new(DESCRIBED);
    write_facts(&mut record, &stats);
    descriptor.write(&mut record);
    for chunk in chunks(&column, &stats) {
        record.u32(chunk.len());
        record.u64(checksum(chunk));
    }
    record.u32(distinct.len());
    record.u64(checksum_keys(distinct));
    record
}

fn not_written_record(encoding: Encoding) -> Record {
    let refused = write(&[1, 2, 3], encoding).expect_err("no integer encoding");
    assert_eq!(refused.offset, None);
    let mut record = Record::new(NOT_WRITTEN);
    record.u8(encoding.as_u8());
    record.u8(refused.number);
    record
}

/// The chunk in each encoding; empty for Dictionary above 16,384 distinct values, which the original writes and
/// document 01 refuses.
fn chunks(column: &[i64], stats: &IntegerStats) -> Vec<Vec<u8>> {
    let chunks: Vec<Vec<u8>> = ENCODINGS
        .iter()
        .map(|&encoding| {
            if encoding == Encoding::Dictionary && stats.distinct_values().is_none() {
                return Vec::new();
            }
            let chunk = chunk_of(column, encoding);
            assert_eq!(read(0, &chunk).as_deref(), Ok(column));
            assert_eq!(read(encoding.as_u8(), &chunk).as_deref(), Ok(column));
            chunk
        })
        .collect();
    check_lengths(stats, &chunks);
    chunks
}

/// What document 01 says of the estimates: all are exact but Delta's, which is never too small.
fn check_lengths(stats: &IntegerStats, chunks: &[Vec<u8>]) {
    for (encoding, length) in estimate_sizes(stats).candidates() {
        let written = chunks[encoding.as_u8() as usize - 1].len();
        assert!(written == length || encoding == Encoding::DeltaBinaryPacked && written < length);
    }
}

/// The part that both kinds of column begin with.
fn write_facts(record: &mut Record, stats: &IntegerStats) {
    write_stats(record, stats);
    write_estimates(record, stats);
    write_plans(record, stats);
}

fn write_stats(record: &mut Record, stats: &IntegerStats) {
    let (exceeded, cardinality) = match stats.cardinality {
        Cardinality::Exact(count) => (0, count),
        Cardinality::AtLeast(count) => (1, count),
    };
    let distinct = stats.distinct_values().map_or(MAX_DICTIONARY_CARDINALITY + 1, <[i64]>::len);
    assert_eq!(cardinality, distinct);

    record.u32(stats.count);
    record.i64(stats.first);
    record.i64(stats.min);
    record.i64(stats.max);
    record.u32(stats.run_count);
    record.u8(match stats.sortedness {
        Sortedness::Constant => 0,
        Sortedness::Ascending => 1,
        Sortedness::Descending => 2,
        Sortedness::Unsorted => 3,
    });
    record.u8(exceeded);
    record.u32(cardinality);
    record.u64(stats.value_span);
    record.u64(stats.max_zigzag);
    record.u32(stats.varint_body_bytes);
    record.u32(stats.run_length_body_bytes);
    record.i64(stats.delta_min);
    record.i64(stats.delta_max);
    record.u64(stats.delta_span);
    record.u64(stats.run_density().to_bits());
}

fn write_estimates(record: &mut Record, stats: &IntegerStats) {
    let estimates = estimate_sizes(stats);
    for length in [
        Some(estimates.plain),
        Some(estimates.varint),
        Some(estimates.bit_packed),
        Some(estimates.frame_of_reference),
        Some(estimates.run_length),
        estimates.dictionary,
        estimates.delta,
    ] {
        record.u8(u8::from(length.is_some()));
        record.u32(length.unwrap_or(0));
    }
}

/// The plans at the ten levels, equal ones once, with a bit for each of their levels.
fn write_plans(record: &mut Record, stats: &IntegerStats) {
    let mut plans: Vec<(EncodingPlan, usize)> = Vec::new();
    for level in 0..10 {
        let plan = choose_integer_encoding(stats, CompressionLevel::new(level).expect("a level"));
        match plans.iter_mut().find(|(known, _)| *known == plan) {
            Some((_, levels)) => *levels |= 1 << level,
            None => plans.push((plan, 1 << level)),
        }
    }
    record.u8(plans.len() as u8);
    for (plan, levels) in plans {
        record.u16(levels);
        write_plan(record, &plan);
    }
}

fn write_plan(record: &mut Record, plan: &EncodingPlan) {
    record.u8(plan.encoding.as_u8());
    record.u8(match plan.reason {
        PlanReason::Empty => 0,
        PlanReason::CompressionDisabled => 1,
        PlanReason::SmallestEstimate => 2,
        PlanReason::GainBelowThreshold => 3,
    });
    record.u32(plan.estimated_bytes);
    record.u32(plan.plain_bytes);
    record.u64(plan.estimated_ratio().to_bits());
}
