//! Columns come back as they were, in every encoding, at every level and by every way of reading.

use warpboulder::{
    analyze, analyze_integers, decode_integers, decode_integers_strict, decode_named, decode_named_strict,
    encode_integers, estimate_sizes, peek_encoding, BitPackedCodec, Codec, CompressionLevel, DeltaBinaryPackedCodec,
    DictionaryCodec, Encoding, FrameOfReferenceCodec, PlainCodec, RunLengthCodec, VarintCodec, CODEC_VERSION,
    MAX_CHUNK_ELEMENTS, MAX_DICTIONARY_CARDINALITY,
};

/// Keys without a pattern.
fn noise(count: usize) -> Vec<i64> {
    let mut state = 0x2545_F491_4F6C_DD1Du64;
    let mut next = || {
        state = state.wrapping_mul(6_364_136_223_846_793_005).wrapping_add(1);
        state as i64
    };
    (0..count).map(|_| next()).collect()
}

/// Small columns with edges of the key range, and one column for each shape that an encoding is made for.
fn columns() -> Vec<Vec<i64>> {
    let mut columns = vec![
        vec![],
        vec![0],
        vec![i64::MIN],
        vec![i64::MAX],
        vec![i64::MIN, i64::MAX],
        vec![i64::MAX, i64::MIN],
        vec![-1, 0, 1, i64::MIN, i64::MAX, 0],
        vec![5; 4],
        (0..1000).map(|i| i / 50).collect(),
        (0..1000).map(|i| (i * 7919) % 17 - 8).collect(),
        (0..1000).map(|i| 1_700_000_000_000 + i * i).collect(),
        (0..1000).rev().collect(),
        (0..1000).map(|i| if i % 100 == 99 { i64::MAX - i } else { i % 3 }).collect(),
        (0..MAX_DICTIONARY_CARDINALITY as i64).map(|i| i * 1_000_003).collect(),
        noise(3000),
    ];
    // A block of deltas has 128, and a packed block ends on a byte at every eighth key.
    for count in [7, 8, 9, 127, 128, 129, 130, 255, 256, 257, 258] {
        columns.push((0..count).map(|i| i * i - 40 * i).collect());
        columns.push(noise(count as usize));
    }
    columns
}

#[test]
fn every_encoding_is_read_back_in_every_way() {
    for column in columns() {
        for encoding in Encoding::ALL {
            let mut chunk = Vec::new();
            encode_integers(&column, encoding, &mut chunk).unwrap();
            assert_eq!(chunk[..2], [encoding.as_u8(), CODEC_VERSION]);
            assert_eq!(peek_encoding(&chunk), Ok(encoding));
            assert_eq!(decode_integers(&chunk).as_ref(), Ok(&column));
            assert_eq!(decode_integers_strict(&chunk).as_ref(), Ok(&column));
            assert_eq!(decode_named(&chunk, encoding).as_ref(), Ok(&column));
            assert_eq!(decode_named_strict(&chunk, encoding).as_ref(), Ok(&column));
        }
    }
}

#[test]
fn codecs_write_and_read_their_own_encoding() {
    type IntegerCodec = dyn Codec<Input = [i64], Output = Vec<i64>>;
    let codecs: [&IntegerCodec; 7] = [
        &PlainCodec,
        &VarintCodec,
        &BitPackedCodec,
        &FrameOfReferenceCodec,
        &RunLengthCodec,
        &DictionaryCodec,
        &DeltaBinaryPackedCodec,
    ];
    assert_eq!(codecs.map(Codec::encoding), Encoding::ALL);
    for column in columns() {
        for codec in codecs {
            let mut chunk = Vec::new();
            encode_integers(&column, codec.encoding(), &mut chunk).unwrap();
            assert_eq!(codec.encode_to_vec(&column).as_ref(), Ok(&chunk));
            assert_eq!(codec.decode(&chunk).as_ref(), Ok(&column));
        }
    }
}

#[test]
fn estimates_are_lengths_and_deltas_is_never_too_short() {
    for column in columns() {
        for (encoding, estimate) in estimate_sizes(&analyze_integers(&column)).candidates() {
            let mut chunk = Vec::new();
            encode_integers(&column, encoding, &mut chunk).unwrap();
            match encoding {
                Encoding::DeltaBinaryPacked => assert!(chunk.len() <= estimate),
                _ => assert_eq!(chunk.len(), estimate),
            }
        }
    }
}

#[test]
fn planned_chunks_are_as_long_as_planned_and_never_longer_than_plain() {
    for column in columns() {
        for level in (0..=9).filter_map(CompressionLevel::new) {
            let plan = analyze(&column, level);
            let mut chunk = Vec::new();
            encode_integers(&column, plan.encoding, &mut chunk).unwrap();
            assert!(chunk.len() <= plan.estimated_bytes && plan.estimated_bytes <= plan.plain_bytes);
            assert!(chunk.len() == plan.estimated_bytes || plan.encoding == Encoding::DeltaBinaryPacked);
            assert_eq!(decode_integers_strict(&chunk).as_ref(), Ok(&column));
        }
    }
}

#[test]
fn a_column_may_have_as_many_keys_as_the_limit() {
    let column = vec![-3; MAX_CHUNK_ELEMENTS];
    let plan = analyze(&column, CompressionLevel::BALANCED);
    let mut chunk = Vec::with_capacity(plan.estimated_bytes);
    encode_integers(&column, plan.encoding, &mut chunk).unwrap();
    // A dictionary of one entry, with codes of no bits.
    assert_eq!(chunk, [0x06, 0x01, 0x80, 0x80, 0x80, 0x08, 0x01, 0x05, 0x00]);
    assert!(decode_integers_strict(&chunk).as_ref() == Ok(&column));
}
