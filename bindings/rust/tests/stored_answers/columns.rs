//! columns.bin: statistics, estimates, plans and chunks of columns.

use warpboulder::{
    analyze, analyze_integers, encode_integers, estimate_sizes, Cardinality, CompressionLevel, Encoding, IntegerStats,
    PlanReason, Sortedness,
};

use crate::file::{checksum, checksum_of_keys, each_record, states, Fields};

#[test]
fn columns() {
    each_record("columns.bin", |kind, fields| match kind {
        1 => stored_column(fields),
        2 => described_column(fields),
        // Ids 8 and 9, which the crate's `Encoding` does not have.
        3 => assert_eq!((Encoding::from_u8(fields.u8()), fields.u8()), (None, 2)),
        _ => panic!("there is no kind {kind}"),
    });
}

/// The sizes of a record of statistics behind its count, of an estimate and of a plan.
const RECORD_BYTES: usize = 90;
const ESTIMATE_BYTES: usize = 5;
const PLAN_BYTES: usize = 20;

/// What the original's analysis answered, as it is stored.
struct Analysis<'a> {
    count: usize,
    record: Fields<'a>,
    estimates: Fields<'a>,
    plans: Fields<'a>,
}

impl<'a> Analysis<'a> {
    fn read(fields: &mut Fields<'a>) -> Analysis<'a> {
        let count = fields.u32() as usize;
        let record = fields.part(RECORD_BYTES);
        let estimates = fields.part(Encoding::ALL.len() * ESTIMATE_BYTES);
        let plans = usize::from(fields.u8());
        Analysis { count, record, estimates, plans: fields.part(plans * PLAN_BYTES) }
    }

    fn check(mut self, column: &[i64]) {
        let stats = analyze_integers(column);
        assert_eq!(stats.count, self.count);
        check_record(&mut self.record, &stats);
        check_estimates(&mut self.estimates, &stats);
        let mut levels = 0;
        while !self.plans.is_empty() {
            levels |= check_plan(&mut self.plans, column);
        }
        assert_eq!(levels, (1 << 10) - 1, "every level has a plan");
    }
}

fn check_record(record: &mut Fields, stats: &IntegerStats) {
    assert_eq!([stats.first, stats.min, stats.max], [record.i64(), record.i64(), record.i64()]);
    assert_eq!(stats.run_count, record.u32() as usize);
    let orders = [Sortedness::Constant, Sortedness::Ascending, Sortedness::Descending, Sortedness::Unsorted];
    assert_eq!(stats.sortedness, orders[usize::from(record.u8())]);
    let cardinality = match (record.u8(), record.u32() as usize) {
        (0, count) => Cardinality::Exact(count),
        (_, count) => Cardinality::AtLeast(count),
    };
    assert_eq!(stats.cardinality, cardinality);
    assert_eq!([stats.value_span, stats.max_zigzag], [record.u64(), record.u64()]);
    assert_eq!(
        [stats.varint_body_bytes, stats.run_length_body_bytes],
        [record.u32(), record.u32()].map(|n| n as usize)
    );
    assert_eq!([stats.delta_min, stats.delta_max], [record.i64(), record.i64()]);
    assert_eq!(stats.delta_span, record.u64());
    assert_eq!(stats.run_density().to_bits(), record.u64());
    assert!(record.is_empty());
}

fn check_estimates(stored: &mut Fields, stats: &IntegerStats) {
    let mut candidates = Vec::new();
    for encoding in Encoding::ALL {
        let (available, length) = (stored.u8(), stored.u32());
        if available == 1 {
            candidates.push((encoding, length as usize));
        }
    }
    assert_eq!(estimate_sizes(stats).candidates(), candidates);
}

/// Checks one plan at the levels whose bits it has, and gives the bits.
fn check_plan(stored: &mut Fields, column: &[i64]) -> u16 {
    let levels = stored.u16();
    let encoding = Encoding::from_u8(stored.u8());
    let reasons = [
        PlanReason::Empty,
        PlanReason::CompressionDisabled,
        PlanReason::SmallestEstimate,
        PlanReason::GainBelowThreshold,
    ];
    let reason = reasons[usize::from(stored.u8())];
    let bytes = [stored.u32() as usize, stored.u32() as usize];
    let ratio = stored.u64();
    for level in (0..10).filter(|level| levels >> level & 1 == 1) {
        let plan = analyze(column, CompressionLevel::new(level).unwrap());
        assert_eq!((Some(plan.encoding), plan.reason), (encoding, reason));
        assert_eq!([plan.estimated_bytes, plan.plain_bytes], bytes);
        assert_eq!(plan.estimated_ratio().to_bits(), ratio);
    }
    levels
}

fn chunk_of(column: &[i64], encoding: Encoding) -> Vec<u8> {
    let mut chunk = Vec::new();
    encode_integers(column, encoding, &mut chunk).unwrap();
    chunk
}

fn stored_column(fields: &mut Fields) {
    let analysis = Analysis::read(fields);
    let chunks = Encoding::ALL.map(|_| {
        let length = fields.u32();
        fields.take(length as usize)
    });
    // The keys are stored in the Plain chunk, behind its header.
    let keys = chunks[0].rchunks_exact(8).rev().map(|key| i64::from_le_bytes(key.try_into().unwrap()));
    let column: Vec<i64> = keys.collect();
    analysis.check(&column);
    for (encoding, chunk) in Encoding::ALL.into_iter().zip(chunks) {
        assert_eq!(chunk_of(&column, encoding), chunk);
    }
    let count = fields.u32();
    assert_eq!(analyze_integers(&column).distinct_values(), Some(&fields.keys(count as usize)[..]));
}

fn described_column(fields: &mut Fields) {
    let analysis = Analysis::read(fields);
    let column = described(fields, analysis.count);
    analysis.check(&column);
    for encoding in Encoding::ALL {
        let (length, sum) = (fields.u32() as usize, fields.u64());
        // The original writes dictionaries of more than 16,384 entries, which are not stored.
        if length > 0 {
            let chunk = chunk_of(&column, encoding);
            assert_eq!((chunk.len(), checksum(chunk)), (length, sum));
        }
    }
    let (count, sum) = (fields.u32() as usize, fields.u64());
    let stats = analyze_integers(&column);
    let distinct = stats.distinct_values().unwrap_or_default();
    assert_eq!((distinct.len(), checksum_of_keys(distinct)), (count, sum));
}

/// The keys of a formula, of which all sums and products are modulo 2^64.
fn described(fields: &mut Fields, count: usize) -> Vec<i64> {
    let [start, step, every, factor, wrap, seed, shift, modulus, rare, other] = [(); 10].map(|()| fields.u64());
    let key = |(i, state): (u64, u64)| {
        if i % rare == rare - 1 {
            return other as i64;
        }
        let steps = (i / every).wrapping_mul(factor) % wrap;
        start.wrapping_add(step.wrapping_mul(steps)).wrapping_add((state >> shift) % modulus) as i64
    };
    (0..).zip(states(seed)).take(count).map(key).collect()
}
