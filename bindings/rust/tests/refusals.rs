//! Every refusal that a caller of the crate can meet, with its number and its offset: document 01's questions, one by
//! one. (20, 22 and 24 cannot be met: the crate lends enough, and no level is above 9.)

mod common;

use common::refused;
use warpboulder::bitpack::{pack, try_packed_len, unpack};
use warpboulder::varint::{read_uvarint, read_varint};
use warpboulder::{
    analyze, analyze_integers, bitpack, decode_integers, decode_integers_strict, decode_named, decode_named_strict,
    encode_integers, peek_encoding, try_analyze, try_analyze_integers, Codec, CompressionLevel, Encoding, PlainCodec,
    MAX_CHUNK_ELEMENTS,
};

const EIGHT: [u8; 8] = [0; 8];

/// A chunk of several parts.
fn joined(parts: &[&[u8]]) -> Vec<u8> {
    parts.concat()
}

/// The chunk is refused so by every way of reading, named by its own encoding or not, strict or not.
#[track_caller]
fn refused_everywhere(chunk: &[u8], number: u32, offset: usize) {
    let encoding = peek_encoding(chunk).unwrap();
    assert_eq!(refused(decode_integers(chunk)), (number, offset));
    assert_eq!(refused(decode_integers_strict(chunk)), (number, offset));
    assert_eq!(refused(decode_named(chunk, encoding)), (number, offset));
    assert_eq!(refused(decode_named_strict(chunk, encoding)), (number, offset));
}

#[test]
fn headers() {
    for unknown in [&[][..], &[0], &[10], &[0xFF, 1, 0]] {
        assert_eq!(refused(decode_integers(unknown)), (1, 0));
        assert_eq!(refused(peek_encoding(unknown)), (1, 0));
    }
    for of_bytes in [&[8][..], &[9, 1, 0]] {
        assert_eq!(refused(decode_integers(of_bytes)), (2, 0));
        assert_eq!(refused(peek_encoding(of_bytes)), (2, 0));
    }
    refused_everywhere(&[1], 3, 0);
    refused_everywhere(&[1, 2, 0], 5, 1);
    refused_everywhere(&[1, 0], 5, 1);
    refused_everywhere(&[1, 1], 6, 2);
    refused_everywhere(&joined(&[&[1, 1], &[0x80; 10]]), 6, 2);
    refused_everywhere(&joined(&[&[1, 1], &[0x80; 11]]), 7, 2);
    refused_everywhere(&[1, 1, 0x81, 0x80, 0x80, 0x08], 8, 2);
}

/// A named reading asks for two bytes first, and for the name last.
#[test]
fn headers_of_a_named_reading() {
    for short in [&[][..], &[0], &[8]] {
        assert_eq!(refused(decode_named(short, Encoding::Plain)), (3, 0));
    }
    assert_eq!(refused(decode_named(&[0, 1, 0], Encoding::Plain)), (1, 0));
    assert_eq!(refused(decode_named(&[8, 1, 0], Encoding::Plain)), (4, 0));
    assert_eq!(refused(decode_named(&[2, 9, 0], Encoding::Plain)), (4, 0));
    assert_eq!(refused(decode_named_strict(&[2, 1, 0], Encoding::Plain)), (4, 0));
    assert_eq!(refused(PlainCodec.decode(&[2, 1, 0])), (4, 0));
}

#[test]
fn bodies_of_keys_and_packed_bodies() {
    refused_everywhere(&[1, 1, 1], 9, 3);
    refused_everywhere(&joined(&[&[1, 1, 2], &EIGHT, &[0; 7]]), 9, 3);
    refused_everywhere(&[2, 1, 2, 0], 6, 4);
    refused_everywhere(&joined(&[&[2, 1, 1], &[0xFF; 11]]), 7, 3);
    refused_everywhere(&[3, 1, 0], 10, 3);
    refused_everywhere(&[3, 1, 0, 65], 12, 0);
    refused_everywhere(&[3, 1, 4, 4, 0xAA], 13, 1);
    refused_everywhere(&joined(&[&[4, 1, 0], &EIGHT]), 11, 3);
    refused_everywhere(&joined(&[&[4, 1, 0], &EIGHT, &[65]]), 12, 0);
    refused_everywhere(&joined(&[&[4, 1, 9], &EIGHT, &[1, 0xFF]]), 13, 1);
}

#[test]
fn bodies_of_runs() {
    refused_everywhere(&[5, 1, 1], 6, 3);
    refused_everywhere(&[5, 1, 0, 1], 14, 4);
    refused_everywhere(&[5, 1, 2, 1, 10, 3], 15, 6);
    refused_everywhere(&[5, 1, 2, 1, 10, 1], 16, 0);
    // A length near 2^64 is not added to anything before it is compared.
    refused_everywhere(&joined(&[&[5, 1, 2, 2, 10, 1, 10], &[0xFF; 9], &[1]]), 15, 17);
}

#[test]
fn bodies_of_dictionaries() {
    refused_everywhere(&[6, 1, 0, 1], 17, 4);
    refused_everywhere(&[6, 1, 0, 0], 10, 4);
    refused_everywhere(&[6, 1, 0, 0, 65], 12, 0);
    refused_everywhere(&[6, 1, 9, 1, 10, 1, 0], 13, 1);
    refused_everywhere(&[6, 1, 1, 1, 10, 1, 1], 18, 5);
    refused_everywhere(&[6, 1, 1, 0, 0], 18, 4);
}

#[test]
fn bodies_of_deltas() {
    refused_everywhere(&[7, 1, 1], 6, 3);
    refused_everywhere(&[7, 1, 1, 2, 0], 19, 5);
    refused_everywhere(&[7, 1, 2, 2, 1], 6, 5);
    refused_everywhere(&[7, 1, 2, 2, 1, 0], 10, 6);
    refused_everywhere(&[7, 1, 2, 2, 1, 0, 65], 12, 0);
    refused_everywhere(&[7, 1, 2, 2, 1, 0, 1], 13, 0);
}

/// A lenient reading accepts these chunks; a strict one asks about padding, then about the end, after everything else.
#[test]
fn strict_reading() {
    type Chunk = &'static [u8];
    type Keys = &'static [i64];
    let cases: [(Chunk, (u32, usize), Keys); 6] = [
        (&[1, 1, 0x80, 0x00], (25, 2), &[]),
        (&[2, 1, 1, 0x8A, 0x00], (25, 3), &[5]),
        (&[5, 1, 1, 1, 10, 0x81, 0x00], (25, 5), &[5]),
        (&[1, 1, 0, 0], (26, 3), &[]),
        (&[3, 1, 4, 4, 0xAA, 0xAA, 0xAA, 0xAA], (26, 6), &[5, 5, 5, 5]),
        (&[2, 1, 1, 0x8A, 0x00, 0x00], (25, 3), &[5]),
    ];
    for (chunk, refusal, keys) in cases {
        let encoding = peek_encoding(chunk).unwrap();
        assert_eq!(decode_integers(chunk).as_deref(), Ok(keys));
        assert_eq!(decode_named(chunk, encoding).as_deref(), Ok(keys));
        assert_eq!(refused(decode_integers_strict(chunk)), refusal);
        assert_eq!(refused(decode_named_strict(chunk, encoding)), refusal);
    }
    refused_everywhere(&[1, 1, 0x81, 0x00], 9, 4);
}

#[test]
fn writing() {
    let too_long = vec![0; MAX_CHUNK_ELEMENTS + 1];
    for encoding in Encoding::ALL {
        assert_eq!(refused(encode_integers(&too_long, encoding, &mut Vec::new())), (21, 0));
    }
    let too_many_distinct: Vec<i64> = (0..16_385).collect();
    assert_eq!(refused(encode_integers(&too_many_distinct, Encoding::Dictionary, &mut Vec::new())), (23, 0));
}

#[test]
fn analysing() {
    let too_long = vec![0; MAX_CHUNK_ELEMENTS + 1];
    assert_eq!(refused(try_analyze_integers(&too_long)), (21, 0));
    assert_eq!(refused(try_analyze(&too_long, CompressionLevel::NONE)), (21, 0));
    assert_eq!(refused(try_analyze(&too_long, CompressionLevel::MAX)), (21, 0));
}

#[test]
fn packing() {
    let too_many = vec![0; MAX_CHUNK_ELEMENTS + 1];
    assert_eq!(refused(pack(&too_many, 65, &mut Vec::new())), (21, 0));
    assert_eq!(refused(pack(&[], 65, &mut Vec::new())), (12, 0));
    assert_eq!(refused(try_packed_len(MAX_CHUNK_ELEMENTS + 1, 65)), (21, 0));
    assert_eq!(refused(try_packed_len(usize::MAX, 64)), (21, 0));
    assert_eq!(refused(try_packed_len(1, 65)), (12, 0));
    assert_eq!(try_packed_len(MAX_CHUNK_ELEMENTS, 64), Ok(8 * MAX_CHUNK_ELEMENTS));
    assert_eq!(refused(unpack(&[], 65, usize::MAX)), (21, 0));
    assert_eq!(refused(unpack(&[], 65, 1)), (12, 0));
    assert_eq!(refused(unpack(&[0; 7], 8, 8)), (13, 7));
    assert_eq!(unpack(&[], 0, 3), Ok(vec![0; 3]));
}

/// A varint may be asked for behind the end.
#[test]
fn varints() {
    for place in [0, 3, 4, usize::MAX] {
        let mut pos = place;
        assert_eq!(refused(read_uvarint(&[0x80; 3], &mut pos)), (6, place));
        assert_eq!(refused(read_varint(&[0x80; 3], &mut pos)), (6, place));
        assert_eq!(pos, place);
    }
    let mut pos = 1;
    assert_eq!(refused(read_uvarint(&[0x80; 12], &mut pos)), (7, 1));
    assert_eq!(refused(read_varint(&[0x80; 12], &mut pos)), (7, 1));
    assert_eq!(pos, 1);
}

#[test]
#[should_panic = "analyze of 16777217 values: there are more than 16,777,216 keys or values (refusal 21 at offset 0)"]
fn analyze_panics_above_the_limit() {
    analyze(&vec![0; MAX_CHUNK_ELEMENTS + 1], CompressionLevel::BALANCED);
}

#[test]
#[should_panic = "analyze_integers of 16777217 values: there are more than 16,777,216 keys or values"]
fn analyze_integers_panics_above_the_limit() {
    analyze_integers(&vec![0; MAX_CHUNK_ELEMENTS + 1]);
}

#[test]
#[should_panic = "packed_len of 1 values of 65 bits: a width is above 64 bits (refusal 12 at offset 0)"]
fn packed_len_panics_above_width_64() {
    bitpack::packed_len(1, 65);
}
