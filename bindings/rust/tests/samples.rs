//! The sample sheet of document 01, and what it says of statistics, estimates and plans.

mod common;

use common::refused;
use warpboulder::varint::{read_uvarint, write_uvarint, zigzag_decode, zigzag_encode};
use warpboulder::{
    analyze, analyze_integers, decode_integers, encode_integers, estimate_sizes, Cardinality, CompressionLevel,
    Encoding, EncodingPlan, PlanReason, Sortedness, MAX_CHUNK_ELEMENTS,
};

fn level(number: u8) -> CompressionLevel {
    CompressionLevel::new(number).unwrap()
}

fn chunk_of(column: &[i64], encoding: Encoding) -> Vec<u8> {
    let mut chunk = Vec::new();
    encode_integers(column, encoding, &mut chunk).unwrap();
    chunk
}

#[test]
fn zigzag() {
    assert_eq!([0, -1, 1, -2].map(zigzag_encode), [0, 1, 2, 3]);
    assert_eq!([0, 1, 2, 3].map(zigzag_decode), [0, -1, 1, -2]);
    assert_eq!((zigzag_encode(i64::MIN), zigzag_decode(u64::MAX)), (u64::MAX, i64::MIN));
}

#[test]
fn varints() {
    let mut out = Vec::new();
    write_uvarint(300, &mut out);
    assert_eq!(out, [0xAC, 0x02]);

    // A tenth byte counts by its lowest bit.
    let mut bytes = vec![0xFF; 9];
    bytes.push(0x03);
    let mut pos = 0;
    assert_eq!((read_uvarint(&bytes, &mut pos), pos), (Ok(u64::MAX), 10));

    assert_eq!(refused(read_uvarint(&[0xFF; 10], &mut 0)), (6, 0));
    assert_eq!(refused(read_uvarint(&[0xFF; 11], &mut 0)), (7, 0));
}

#[test]
fn the_empty_column() {
    assert_eq!(chunk_of(&[], Encoding::Plain), [0x01, 0x01, 0x00]);
    let plan =
        EncodingPlan { encoding: Encoding::Plain, estimated_bytes: 3, plain_bytes: 3, reason: PlanReason::Empty };
    assert_eq!(analyze(&[], level(6)), plan);
    assert_eq!(analyze(&[], level(0)), plan);

    let stats = analyze_integers(&[]);
    assert_eq!((stats.count, stats.run_count, stats.first, stats.min, stats.max), (0, 0, 0, 0, 0));
    assert_eq!(
        (stats.value_span, stats.max_zigzag, stats.varint_body_bytes, stats.run_length_body_bytes),
        (0, 0, 0, 0)
    );
    assert_eq!((stats.delta_min, stats.delta_max, stats.delta_span), (0, 0, 0));
    assert_eq!((stats.sortedness, stats.cardinality), (Sortedness::Constant, Cardinality::Exact(0)));
    assert_eq!((stats.distinct_values(), stats.run_density()), (Some(&[][..]), 0.0));
}

#[test]
fn one_zero() {
    let plan = analyze(&[0], level(6));
    assert_eq!((plan.encoding, plan.estimated_bytes), (Encoding::BitPacked, 4));
    assert_eq!(chunk_of(&[0], Encoding::BitPacked), [0x03, 0x01, 0x01, 0x00]);
    // Varint ties and loses by rank; there are no differences.
    let sizes = estimate_sizes(&analyze_integers(&[0]));
    assert_eq!((sizes.varint, sizes.bit_packed, sizes.delta), (4, 4, None));
}

#[test]
fn four_fives() {
    let column = [5, 5, 5, 5];
    assert_eq!(analyze(&column, level(6)).encoding, Encoding::BitPacked);
    assert_eq!(chunk_of(&column, Encoding::BitPacked), [0x03, 0x01, 0x04, 0x04, 0xAA, 0xAA]);
    assert_eq!(chunk_of(&column, Encoding::RunLength), [0x05, 0x01, 0x04, 0x01, 0x0A, 0x04]);
    assert_eq!(chunk_of(&column, Encoding::Dictionary), [0x06, 0x01, 0x04, 0x01, 0x0A, 0x00]);
}

#[test]
fn the_least_and_the_greatest_key() {
    let column = [i64::MIN, i64::MAX];
    assert_eq!(chunk_of(&column, Encoding::DeltaBinaryPacked).len(), 17);
    assert_eq!(chunk_of(&column, Encoding::Plain).len(), 19);
    for number in 1..=9 {
        let plan = analyze(&column, level(number));
        let expected = match number {
            1..=3 => (Encoding::Plain, 19, PlanReason::GainBelowThreshold),
            _ => (Encoding::DeltaBinaryPacked, 17, PlanReason::SmallestEstimate),
        };
        assert_eq!((plan.encoding, plan.estimated_bytes, plan.reason), expected, "at level {number}");
    }
    let plan = analyze(&column, level(0));
    assert_eq!((plan.encoding, plan.reason), (Encoding::Plain, PlanReason::CompressionDisabled));

    // A delta is taken modulo 2^64, so that the key range is one step down.
    let stats = analyze_integers(&column);
    assert_eq!((stats.value_span, stats.delta_min, stats.delta_max), (u64::MAX, -1, -1));
}

#[test]
fn the_estimate_of_delta_is_of_its_whole_span() {
    let mut column = vec![0; 129];
    column.push(1000);
    assert_eq!(estimate_sizes(&analyze_integers(&column)).delta, Some(175));
    assert_eq!(chunk_of(&column, Encoding::DeltaBinaryPacked).len(), 12);
}

/// 132 keys whose shortest chunk is in Varint: the least and the greatest key make every packed width 64, `long` keys
/// have eight bytes and the others seven, and the distances between the keys are about as long as the keys.
fn mostly_long_varints(long: i64) -> Vec<i64> {
    let eight_bytes = (1..=long).map(|i| i << 48);
    let seven_bytes = (1..=130 - long).map(|i| -(i << 42));
    [i64::MIN, i64::MAX].into_iter().chain(eight_bytes).chain(seven_bytes).collect()
}

#[test]
fn a_gain_of_just_five_percent_is_enough() {
    for (long, best, encoding, reason) in [
        (73, 1007, Encoding::Varint, PlanReason::SmallestEstimate),
        (74, 1008, Encoding::Plain, PlanReason::GainBelowThreshold),
    ] {
        let column = mostly_long_varints(long);
        let candidates = estimate_sizes(&analyze_integers(&column)).candidates();
        assert_eq!(candidates.iter().map(|&(_, length)| length).min(), Some(best));
        let plan = analyze(&column, level(6));
        assert_eq!((plan.encoding, plan.plain_bytes, plan.reason), (encoding, 1060, reason));
    }
}

#[test]
fn a_dictionary_has_at_most_16384_entries() {
    let full: Vec<i64> = (0..16_384).rev().collect();
    let stats = analyze_integers(&full);
    assert_eq!(stats.cardinality, Cardinality::Exact(16_384));
    assert!(stats.distinct_values().unwrap().iter().copied().eq(0..16_384));
    assert!(estimate_sizes(&stats).dictionary.is_some());

    let over: Vec<i64> = (0..16_385).collect();
    let stats = analyze_integers(&over);
    assert_eq!((stats.cardinality, stats.distinct_values()), (Cardinality::AtLeast(16_385), None));
    assert_eq!(estimate_sizes(&stats).dictionary, None);
    assert_eq!(estimate_sizes(&stats).candidates().len(), 6);
}

#[test]
fn the_limits_of_counts_and_block_sizes() {
    // 2^24 zeros at width 0.
    let column = decode_integers(&[0x03, 0x01, 0x80, 0x80, 0x80, 0x08, 0x00]).unwrap();
    assert!(column.len() == MAX_CHUNK_ELEMENTS && column.iter().all(|&key| key == 0));
    assert_eq!(refused(decode_integers(&[0x03, 0x01, 0x81, 0x80, 0x80, 0x08, 0x00])), (8, 2));

    assert_eq!(decode_integers(&[0x07, 0x01, 0x01, 0x02, 0x80, 0x80, 0x40]), Ok(vec![1]));
    assert_eq!(refused(decode_integers(&[0x07, 0x01, 0x01, 0x02, 0x81, 0x80, 0x40])), (19, 7));

    assert_eq!(refused(decode_integers(&[0x03, 0x01, 0x00, 0x41])), (12, 0));
    assert_eq!(refused(decode_integers(&[0x03, 0x01, 0x01, 0x41])), (12, 0));
}

#[test]
fn the_gain_asked_for() {
    assert_eq!(level(0).minimum_gain(), 1.0);
    for number in 1..=9 {
        let expected = match number {
            1..=3 => 0.20,
            4..=6 => 0.05,
            _ => 0.01,
        };
        assert_eq!(level(number).minimum_gain(), expected, "at level {number}");
    }
}
