//! Errors as people and programs see them.

use std::collections::HashSet;

use warpboulder::{
    bitpack, decode_integers, decode_integers_strict, encode_integers, Encoding, Error, Refusal, MAX_CHUNK_ELEMENTS,
};

#[test]
fn an_error_says_why_with_number_and_offset() {
    let cases: [(&[u8], &str); 4] = [
        (&[], "the first byte is missing or is no encoding id from 1 to 9 (refusal 1 at offset 0)"),
        (&[1, 2, 0], "the version byte is not 1 (refusal 5 at offset 1)"),
        (
            &[3, 1, 4, 4, 0xAA],
            "there are too few packed bytes, and the offset is how many there are (refusal 13 at offset 1)",
        ),
        (&[6, 1, 1, 1, 10, 1, 1], "a code names no entry of the dictionary (refusal 18 at offset 5)"),
    ];
    for (chunk, message) in cases {
        assert_eq!(decode_integers(chunk).unwrap_err().to_string(), message);
    }
}

#[test]
fn numbers_and_refusals_go_both_ways() {
    for (refusal, number) in Refusal::ALL.into_iter().zip(1..) {
        assert_eq!(refusal.number(), number);
        assert_eq!(Refusal::from_number(number), Some(refusal));
    }
    assert_eq!(Refusal::ALL.len(), 26);
    for number in [0, 27, u32::MAX] {
        assert_eq!(Refusal::from_number(number), None);
    }
}

/// Sentences as Rust's errors have them: they can stand behind a colon, and no two are alike.
#[test]
fn every_refusal_has_a_sentence_of_its_own() {
    let sentences: HashSet<String> = Refusal::ALL.iter().map(Refusal::to_string).collect();
    assert_eq!(sentences.len(), Refusal::ALL.len());
    for sentence in sentences {
        assert!(sentence.starts_with(char::is_lowercase) && !sentence.ends_with('.'), "{sentence}");
    }
}

/// The numbers are those of include/warpboulder.h, and the names are its names.
#[test]
fn numbers_and_names_are_those_of_the_header() {
    let header = include_str!("../../../include/warpboulder.h");
    for refusal in Refusal::ALL {
        let line = format!("WB_{} = {}", in_capitals(&format!("{refusal:?}")), refusal.number());
        let stands = |ending: &str| header.contains(&format!("{line}{ending}"));
        assert!(stands(",") || stands(" "), "the header has no {line}");
    }
}

/// `VarintCut` as `VARINT_CUT`: a capital or the first of some digits begins a word.
fn in_capitals(name: &str) -> String {
    let mut words = String::new();
    let mut previous = '\0';
    for letter in name.chars() {
        let begins = letter.is_uppercase() || (letter.is_numeric() && !previous.is_numeric());
        if begins && !words.is_empty() {
            words.push('_');
        }
        words.push(letter.to_ascii_uppercase());
        previous = letter;
    }
    words
}

/// 1 to 19, 25 and 26: bytes that are at fault. The first, the last and those around the gap.
#[test]
fn corruption_is_what_reading_refuses() {
    let damaged: [(&[u8], u32, u64); 4] =
        [(&[], 1, 0), (&[7, 1, 1, 2, 0], 19, 5), (&[1, 1, 0x80, 0x00], 25, 2), (&[1, 1, 0, 0], 26, 3)];
    for (chunk, number, offset) in damaged {
        let error = decode_integers_strict(chunk).unwrap_err();
        assert_eq!((error.number(), error.is_corruption()), (number, true));
        assert_eq!(error.corruption_offset(), Some(offset));
    }
    let too_long = vec![0; MAX_CHUNK_ELEMENTS + 1];
    let too_many_distinct: Vec<i64> = (0..16_385).collect();
    for (column, number) in [(too_long, 21), (too_many_distinct, 23)] {
        let error = encode_integers(&column, Encoding::Dictionary, &mut Vec::new()).unwrap_err();
        assert_eq!((error.number(), error.is_corruption()), (number, false));
        assert_eq!(error.corruption_offset(), None);
    }
}

/// 12 for a width that the caller gave, which says nothing of any bytes; as basalt has it, unpacking reads some.
#[test]
fn a_width_of_the_callers_own_is_no_corruption() {
    let packing = bitpack::pack(&[1], 65, &mut Vec::new()).unwrap_err();
    let length = bitpack::try_packed_len(1, 65).unwrap_err();
    let unpacking = bitpack::unpack(&[0; 9], 65, 1).unwrap_err();
    for (error, corruption) in [(packing, false), (length, false), (unpacking, true)] {
        assert_eq!(error.refusal(), Refusal::WidthAbove64);
        assert_eq!(error.is_corruption(), corruption);
        assert_eq!(error.corruption_offset(), corruption.then_some(0));
    }
}

/// Equality and hashes go by refusal and offset, wherever an error is from.
#[test]
fn errors_are_equal_by_refusal_and_offset() {
    let made = Error::new(Refusal::WidthAbove64, 0);
    assert_eq!(bitpack::try_packed_len(1, 65), Err(made));
    assert_eq!(bitpack::unpack(&[], 65, 1), Err(made));
    assert_ne!(made, Error::new(Refusal::WidthAbove64, 1));
    assert_ne!(made, Error::new(Refusal::PackedCut, 0));
    let both = HashSet::from([made, bitpack::try_packed_len(1, 65).unwrap_err()]);
    assert_eq!(both.len(), 1);
}

#[test]
fn an_error_goes_where_errors_go() {
    fn read(chunk: &[u8]) -> Result<Vec<i64>, Box<dyn std::error::Error + Send + Sync>> {
        Ok(decode_integers(chunk)?)
    }
    let error = read(&[8]).unwrap_err();
    assert_eq!(error.downcast_ref::<Error>().map(Error::refusal), Some(Refusal::NotAnIntegerEncoding));
}
