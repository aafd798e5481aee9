//! What the project has written down of the original's behaviour: document 01's sample sheet, and the open points
//! of 01 that were settled by the original. A fact that does not hold ends the run.

use basalt_common::CompressionLevel;
use basalt_encoding::bitpack::pack;
use basalt_encoding::varint::{read_uvarint, write_uvarint, zigzag_encode};
use basalt_encoding::{
    analyze, analyze_integers, estimate_sizes, Encoding, EncodingPlan, PlanReason, MAX_CHUNK_ELEMENTS,
};

use crate::descriptor;
use crate::pieces::Pieces;
use crate::reading::{chunk_of, read, write, ENCODINGS};
use crate::refusal::{refusal, Call, Refusal};
use crate::shapes;

pub fn check() {
    samples_of_numbers();
    samples_of_columns();
    samples_of_limits();
    headers();
    single_varints();
    packed_bodies();
    counts_of_zero_and_one();
    dictionaries();
    runs();
    plans_and_estimates();
    gains();
    cuts();
    differences();
}

#[track_caller]
fn accepted(name: u8, chunk: &[u8], column: &[i64]) {
    assert_eq!(read(name, chunk).as_deref(), Ok(column), "{chunk:02x?} named {name}");
}

#[track_caller]
fn refused(name: u8, chunk: &[u8], number: u8, offset: u64) {
    let offset = Some(offset);
    assert_eq!(read(name, chunk), Err(Refusal { number, offset }), "{chunk:02x?} named {name}");
}

fn varint_at(bytes: &[u8], place: u64) -> Result<u64, Refusal> {
    read_uvarint(bytes, &mut (place as usize)).map_err(|error| refusal(Call::ReadVarint, &error))
}

fn plan(column: &[i64], level: u8) -> EncodingPlan {
    analyze(column, CompressionLevel::new(level).expect("a level"))
}

/// Document 01's sample sheet, the entries about numbers.
fn samples_of_numbers() {
    assert_eq!([0, -1, 1, -2].map(zigzag_encode), [0, 1, 2, 3]);
    assert_eq!(zigzag_encode(i64::MIN), u64::MAX);
    let mut three_hundred = Vec::new();
    write_uvarint(300, &mut three_hundred);
    assert_eq!(three_hundred, [0xac, 0x02]);
    assert_eq!(varint_at(&[[0xff; 9].as_slice(), &[3]].concat(), 0), Ok(u64::MAX));
}

/// Document 01's sample sheet, the entries about columns.
fn samples_of_columns() {
    assert_eq!(chunk_of(&[], Encoding::Plain), [1, 1, 0]);

    assert_eq!(plan(&[0], 6).encoding, Encoding::BitPacked);
    assert_eq!(chunk_of(&[0], Encoding::BitPacked), [3, 1, 1, 0]);
    let estimates = estimate_sizes(&analyze_integers(&[0]));
    assert_eq!(estimates.varint, estimates.bit_packed);

    assert_eq!(plan(&[5; 4], 6).encoding, Encoding::BitPacked);
    assert_eq!(chunk_of(&[5; 4], Encoding::BitPacked), [3, 1, 4, 4, 0xaa, 0xaa]);
    assert_eq!(chunk_of(&[5; 4], Encoding::RunLength), [5, 1, 4, 1, 0x0a, 4]);
    assert_eq!(chunk_of(&[5; 4], Encoding::Dictionary), [6, 1, 4, 1, 0x0a, 0]);

    let extremes = [i64::MIN, i64::MAX];
    assert_eq!(chunk_of(&extremes, Encoding::DeltaBinaryPacked).len(), 17);
    assert_eq!(chunk_of(&extremes, Encoding::Plain).len(), 19);
    for level in 1..=9 {
        let chosen = plan(&extremes, level);
        let expected = match level {
            1..=3 => (Encoding::Plain, PlanReason::GainBelowThreshold),
            _ => (Encoding::DeltaBinaryPacked, PlanReason::SmallestEstimate),
        };
        assert_eq!((chosen.encoding, chosen.reason), expected);
    }

    let jump = [vec![0; 129], vec![1_000]].concat();
    assert_eq!(estimate_sizes(&analyze_integers(&jump)).delta, Some(175));
    assert_eq!(chunk_of(&jump, Encoding::DeltaBinaryPacked).len(), 12);

    for width in [0x41, 0xff] {
        refused(0, &[3, 1, 0, width], 12, 0);
        refused(0, &[3, 1, 1, width], 12, 0);
    }
}

/// Document 01's sample sheet, the entries about limits.
fn samples_of_limits() {
    let most = Pieces::header(3, 1 << 24).byte(0).done();
    assert_eq!(read(0, &most).map(|column| column.len()), Ok(1 << 24));
    refused(0, &Pieces::header(3, (1 << 24) + 1).byte(0).done(), 8, 2);

    let delta = |block_size| Pieces::header(7, 2).signed(5).unsigned(block_size).signed(1).byte(0).done();
    accepted(0, &delta(1 << 20), &[5, 6]);
    refused(0, &delta((1 << 20) + 1), 19, 7);
}

/// Reading 12: which question comes first in a header.
fn headers() {
    refused(0, &[], 1, 0);
    for name in 1..=7 {
        refused(name, &[], 3, 0);
        refused(name, &[name], 3, 0);
        refused(name, &[8], 3, 0);
        refused(name, &[0, 9], 1, 0);
        refused(name, &[10, 1], 1, 0);
        refused(name, &[8, 9], 4, 0);
        refused(name, &[9, 1], 4, 0);
        refused(name, &[name % 7 + 1, 9], 4, 0);
        refused(name, &[name, 9], 5, 1);
        refused(0, &[name], 3, 0);
        refused(0, &[name, 9], 5, 1);
    }
    refused(0, &[8], 2, 0);
    refused(0, &[9], 2, 0);
    refused(0, &[8, 1, 0], 2, 0);
    refused(0, &[10], 1, 0);
}

/// Readings 11 and 13: a varint at any place, and its last bytes.
fn single_varints() {
    for place in [3, 4, 1 << 40, u64::MAX] {
        assert_eq!(varint_at(&[1, 2, 3], place), Err(Refusal { number: 6, offset: Some(place) }));
    }
    let ten = vec![0xff; 10];
    assert_eq!(varint_at(&ten, 0), Err(Refusal { number: 6, offset: Some(0) }));
    for eleventh in 0..=0xff {
        let eleven = [ten.as_slice(), &[eleventh]].concat();
        assert_eq!(varint_at(&eleven, 0), Err(Refusal { number: 7, offset: Some(0) }));
    }
}

/// Readings 14, 15 and 21: 13 counts from its own body, and what it comes before and after.
fn packed_bodies() {
    refused(0, &[3, 1, 8, 8, 1, 2, 3], 13, 3);
    refused(0, &[3, 1, 8], 10, 3);
    refused(0, &[3, 1, 8, 65], 12, 0);
    // the second block of deltas: width 8, one byte missing of two
    refused(0, &[7, 1, 5, 0, 2, 0, 8, 1, 1, 0, 8, 7], 13, 1);
    // the first block: all bytes up to the chunk's end are counted
    refused(0, &[7, 1, 5, 0, 2, 0, 64, 1, 1, 0, 8, 7], 13, 5);
    refused(0, &[7, 1, 5, 0, 2, 0, 8, 1, 1, 0], 10, 10);
    refused(0, &[7, 1, 5, 0, 2, 0, 8, 1, 1, 0, 65], 12, 0);
    // a code above the only entry, in a body of nine bytes of which one is there
    refused(0, &[6, 1, 9, 1, 10, 8, 5], 13, 1);
    // width 0 needs no bytes; a width wider than needed is read
    accepted(0, &[3, 1, 5, 0], &[0; 5]);
    accepted(0, &[3, 1, 1, 64, 2, 0, 0, 0, 0, 0, 0, 0], &[1]);
}

/// Readings 16 and 17: what is still asked where there is little to read.
fn counts_of_zero_and_one() {
    let frame = [4, 1, 0, 1, 1, 1, 1, 1, 1, 1, 1];
    refused(0, &[3, 1, 0], 10, 3);
    refused(0, &frame, 11, 3);
    refused(0, &[&frame[..], &[65]].concat(), 12, 0);
    accepted(0, &[&frame[..], &[64]].concat(), &[]);
    refused(0, &[5, 1, 0], 6, 3);
    refused(0, &[5, 1, 0, 1], 14, 4);
    accepted(0, &[5, 1, 0, 0], &[]);
    refused(0, &[6, 1, 0], 6, 3);
    refused(0, &[6, 1, 0, 0], 10, 4);
    refused(0, &[6, 1, 0, 1, 10], 10, 5);
    refused(0, &[6, 1, 0, 0, 65], 12, 0);
    accepted(0, &[6, 1, 0, 0, 0], &[]);
    accepted(0, &[7, 1, 0], &[]);
    refused(0, &[7, 1, 1], 6, 3);
    refused(0, &[7, 1, 1, 10], 6, 4);
    refused(0, &[7, 1, 1, 10, 0], 19, 5);
    accepted(0, &[7, 1, 1, 10, 1], &[5]);
}

/// Readings 18 and 19: no entries, and as many as there are bytes left.
fn dictionaries() {
    refused(0, &[6, 1, 1, 0, 0], 18, 4);
    refused(0, &[6, 1, 1, 0, 1, 0], 18, 4);
    refused(0, &[6, 1, 0, 2, 0], 17, 4);
    refused(0, &[6, 1, 0, 1, 0], 10, 5);
}

/// Reading 20: when the questions about runs are asked.
fn runs() {
    refused(0, &[5, 1, 2, 3], 14, 4);
    refused(0, &[5, 1, 2, 1, 10, 3], 15, 6);
    refused(0, &[5, 1, 2, 2, 10, 1, 10, 2], 15, 8);
    refused(0, &[5, 1, 2, 1, 10, 1], 16, 0);
    accepted(0, &[5, 1, 2, 2, 10, 0, 2, 2], &[1, 1]);
    refused(0, &[5, 1, 1, 1, 0x80], 6, 4);
    refused(0, &[5, 1, 2, 2, 10, 2, 0x80], 6, 6);
}

/// Readings 24 to 26: the empty column, density and ratio.
fn plans_and_estimates() {
    let empty = analyze_integers(&[]);
    for level in 0..=9 {
        let chosen = plan(&[], level);
        assert_eq!((chosen.encoding, chosen.reason), (Encoding::Plain, PlanReason::Empty));
        assert_eq!((chosen.estimated_bytes, chosen.plain_bytes), (3, 3));
        assert_eq!(chosen.estimated_ratio().to_bits(), 1.0f64.to_bits());
    }
    assert_eq!(empty.run_density().to_bits(), 0.0f64.to_bits());
    let lengths: Vec<usize> = estimate_sizes(&empty).candidates().iter().map(|(_, length)| *length).collect();
    assert_eq!(lengths, [3, 3, 4, 12, 4, 5]);
    assert_eq!(estimate_sizes(&empty).delta, None);

    let column = [4, 4, 9];
    let chosen = plan(&column, 9);
    assert_eq!(analyze_integers(&column).run_density().to_bits(), (2.0f64 / 3.0).to_bits());
    let ratio = chosen.plain_bytes as f64 / chosen.estimated_bytes as f64;
    assert_eq!(chosen.estimated_ratio().to_bits(), ratio.to_bits());
    let never = EncodingPlan { estimated_bytes: 0, ..chosen };
    assert_eq!(never.estimated_ratio().to_bits(), 1.0f64.to_bits());
}

/// The factors of the gain are the literals that the port uses, and a length that equals the limit is kept.
fn gains() {
    for (level, factor) in [(1, 0.80f64), (3, 0.80), (4, 0.95), (6, 0.95), (7, 0.99), (9, 0.99)] {
        let gain = CompressionLevel::new(level).expect("a level").minimum_gain();
        assert_eq!((1.0 - gain).to_bits(), factor.to_bits());
    }
    let lengths = [(1, 848), (1, 849), (4, 1_007), (4, 1_008), (7, 1_049), (7, 1_050)];
    for ((level, length), descriptor) in lengths.into_iter().zip(descriptor::gains()) {
        let column = descriptor.column();
        let candidates = estimate_sizes(&analyze_integers(&column)).candidates();
        assert_eq!(candidates.iter().map(|(_, length)| *length).min(), Some(length));
        for level in level..level + 3 {
            let chosen = plan(&column, level);
            let kept = chosen.reason == PlanReason::SmallestEstimate;
            assert_eq!(chosen.plain_bytes, 1_060);
            assert_eq!(kept, [848, 1_007, 1_049].contains(&length));
        }
    }
}

/// No beginning of a chunk's own bytes reads.
fn cuts() {
    for column in shapes::samples() {
        for encoding in ENCODINGS {
            let chunk = chunk_of(&column, encoding);
            assert!((0..chunk.len()).all(|length| read(0, &chunk[..length]).is_err()));
        }
    }
}

/// Where the original goes beyond document 01: it writes more values than it reads, and dictionaries of any size;
/// and two of its errors hold no offset.
fn differences() {
    let chunk = chunk_of(&vec![0; MAX_CHUNK_ELEMENTS + 1], Encoding::RunLength);
    refused(0, &chunk, 8, 2);
    let many: Vec<i64> = (0..16_385).collect();
    accepted(0, &chunk_of(&many, Encoding::Dictionary), &many);

    let too_wide = pack(&[], 65, &mut Vec::new()).map_err(|error| refusal(Call::Pack, &error));
    assert_eq!(too_wide, Err(Refusal { number: 12, offset: None }));
    for encoding in [Encoding::PlainBytes, Encoding::ByteLz] {
        assert_eq!(write(&[], encoding), Err(Refusal { number: 2, offset: None }));
    }
}
