//! What calls do with the vectors that they append to: content and capacity.

use warpboulder::bitpack::pack;
use warpboulder::varint::{write_uvarint, write_varint};
use warpboulder::{analyze, encode_integers, Codec, CompressionLevel, DictionaryCodec, Encoding, MAX_CHUNK_ELEMENTS};

const BEFORE: [u8; 3] = [0xDE, 0xAD, 0x00];

#[test]
fn a_chunk_is_appended() {
    let column = [5, 5, 5, 5];
    let chunk = [0x06, 0x01, 0x04, 0x01, 0x0A, 0x00];
    let expected = [&BEFORE[..], &chunk, &chunk].concat();

    let mut out = BEFORE.to_vec();
    encode_integers(&column, Encoding::Dictionary, &mut out).unwrap();
    DictionaryCodec.encode(&column, &mut out).unwrap();
    assert_eq!(out, expected);
}

#[test]
fn numbers_are_appended() {
    let mut out = BEFORE.to_vec();
    write_uvarint(300, &mut out);
    write_varint(-1, &mut out);
    pack(&[10, 10, 10, 10], 4, &mut out).unwrap();
    pack(&[1, 2, 3], 0, &mut out).unwrap();
    assert_eq!(out, [0xDE, 0xAD, 0x00, 0xAC, 0x02, 0x01, 0xAA, 0xAA]);
}

/// Whatever capacity a vector has, and where it has none.
#[test]
fn the_capacity_lent_does_not_change_what_is_appended() {
    // Noise is longer in Varint and RunLength than in Plain, so that the first guess is too short too.
    let column: Vec<i64> = (1..300i64).map(|i| i.wrapping_mul(0x2545_F491_4F6C_DD1D)).collect();
    for encoding in Encoding::ALL {
        let mut expected = BEFORE.to_vec();
        encode_integers(&column, encoding, &mut expected).unwrap();
        for capacity in [0, 3, 4, 100, expected.len() - 1, expected.len(), 10_000] {
            let mut out = Vec::with_capacity(capacity);
            out.extend_from_slice(&BEFORE);
            encode_integers(&column, encoding, &mut out).unwrap();
            assert_eq!(out, expected, "{encoding} with capacity {capacity}");
        }
    }
}

#[test]
fn a_refusal_leaves_the_output_as_it_was() {
    let too_long = vec![0; MAX_CHUNK_ELEMENTS + 1];
    let too_many_distinct: Vec<i64> = (0..16_385).collect();
    for capacity in [BEFORE.len(), 200_000] {
        let mut out = Vec::with_capacity(capacity);
        out.extend_from_slice(&BEFORE);
        encode_integers(&too_long, Encoding::Plain, &mut out).unwrap_err();
        encode_integers(&too_many_distinct, Encoding::Dictionary, &mut out).unwrap_err();
        pack(&[1, 2, 3], 65, &mut out).unwrap_err();
        assert_eq!(out, BEFORE);
        assert!(out.capacity() <= capacity.max(2 * BEFORE.len()), "{} bytes were kept", out.capacity());
    }
}

#[test]
fn the_planned_capacity_is_enough() {
    let columns: [Vec<i64>; 4] =
        [vec![7; 1000], (0..1000).collect(), (0..1000).map(|i| i * i % 31).collect(), vec![i64::MIN, i64::MAX]];
    for column in &columns {
        let plan = analyze(column, CompressionLevel::BALANCED);
        let mut out = Vec::with_capacity(plan.estimated_bytes);
        let (place, capacity) = (out.as_ptr(), out.capacity());
        encode_integers(column, plan.encoding, &mut out).unwrap();
        assert_eq!((out.as_ptr(), out.capacity()), (place, capacity), "{plan:?}");
    }
}

/// A short chunk of a long column does not keep what was reserved for a long chunk.
#[test]
fn a_new_vector_has_at_most_twice_the_capacity_that_it_needs() {
    let column = vec![7; 100_000];
    for encoding in Encoding::ALL {
        let mut out = Vec::new();
        encode_integers(&column, encoding, &mut out).unwrap();
        assert!(out.capacity() <= 2 * out.len(), "{encoding}: {} of {}", out.len(), out.capacity());
    }
}
