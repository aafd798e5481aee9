//! `leaves.bin`: ZigZag, lengths, width, single varints, packing.

use std::collections::BTreeSet;

use basalt_encoding::bitpack::{pack, packed_len, required_width, unpack};
use basalt_encoding::varint::{
    read_uvarint, read_varint, uvarint_len, varint_len, write_uvarint, write_varint, zigzag_decode, zigzag_encode,
};

use crate::file::{AnswerFile, Record};
use crate::numbers::{checksum, checksum_words, next_state, Source};
use crate::refusal::{refusal, Call, Refusal};

const SEED: u64 = 0x6c65_6176_6573_0001;

const NUMBER: u8 = 1;
const VARINT: u8 = 2;
const PACK: u8 = 3;
const UNPACK: u8 = 4;
const PACKED_LENGTH: u8 = 5;
const LONG_PACK: u8 = 6;

pub fn file() -> AnswerFile {
    let mut source = Source::new(SEED);
    let mut file = AnswerFile::new(
        "leaves",
        SEED,
        &[
            (NUMBER, "a number"),
            (VARINT, "a varint read"),
            (PACK, "packing"),
            (UNPACK, "unpacking"),
            (PACKED_LENGTH, "a packed length"),
            (LONG_PACK, "packing and unpacking, described"),
        ],
    );
    for number in numbers(&mut source) {
        file.push(number_record(number));
    }
    for (bytes, place) in varints(&mut source) {
        file.push(varint_record(&bytes, place));
    }
    for (width, values) in packings(&mut source) {
        file.push(pack_record(width, &values));
    }
    for (width, count, body) in unpackings(&mut source) {
        file.push(unpack_record(width, count, &body));
    }
    for (count, width) in packed_lengths() {
        file.push(packed_length_record(count, width));
    }
    for (width, count) in long_packings() {
        file.push(long_pack_record(width, count, source.word()));
    }
    file
}

/// Powers of two and their neighbours, the same below zero where a varint grows, small numbers, and some of any
/// width.
fn numbers(source: &mut Source) -> BTreeSet<u64> {
    let mut numbers: BTreeSet<u64> = (0..10).chain((0..10).map(|n: u64| !n)).collect();
    for bit in 0..64 {
        let power = 1u64 << bit;
        numbers.extend([power - 1, power, power + 1]);
        if bit % 7 == 6 {
            let below = power.wrapping_neg();
            numbers.extend([below.wrapping_sub(1), below, below.wrapping_add(1)]);
        }
    }
    numbers.extend((0..50).map(|_| source.any_width()));
    numbers
}

fn number_record(number: u64) -> Record {
    let key = number as i64;
    let (mut unsigned, mut signed) = (Vec::new(), Vec::new());
    write_uvarint(number, &mut unsigned);
    write_varint(key, &mut signed);
    assert_eq!(unsigned.len(), uvarint_len(number));
    assert_eq!(signed.len(), varint_len(key));
    assert_eq!(zigzag_decode(zigzag_encode(key)), key);

    let mut record = Record::new(NUMBER);
    record.u64(number);
    record.u64(zigzag_encode(key));
    record.i64(zigzag_decode(number));
    record.u8(required_width(number) as u8);
    for mut written in [unsigned, signed] {
        record.u8(written.len() as u8);
        written.resize(10, 0);
        record.bytes(&written);
    }
    record
}

fn varints(source: &mut Source) -> Vec<(Vec<u8>, u64)> {
    let mut cases = places_past_the_end();
    cases.extend(shortest_varints());
    cases.extend(overlong_varints());
    cases.extend(tenth_and_eleventh_bytes());
    cases.extend((0..120).map(|_| random_varint(source)));
    cases
}

fn places_past_the_end() -> Vec<(Vec<u8>, u64)> {
    let places = [0, 1, 2, 3, 4, 1000, 1 << 32, 1 << 63, u64::MAX - 1, u64::MAX];
    let buffers = [vec![], vec![0x05], vec![0x80, 0x01, 0x02]];
    buffers.iter().flat_map(|bytes| places.map(|place| (bytes.clone(), place))).collect()
}

/// Each length at its limits: alone, behind two other bytes and before one, and cut.
fn shortest_varints() -> Vec<(Vec<u8>, u64)> {
    let mut cases = Vec::new();
    let limits = (0..10u32).flat_map(|groups| {
        let least = 1u64.checked_shl(7 * groups).unwrap_or(0);
        let greatest = least.checked_shl(7).unwrap_or(0).wrapping_sub(1);
        [least, greatest]
    });
    for number in limits.chain([0, 300, u64::MAX]) {
        let mut bytes = Vec::new();
        write_uvarint(number, &mut bytes);
        let cut = bytes[..bytes.len() - 1].to_vec();
        let inside = [&[0xff, 0x00], &bytes[..], &[0x81]].concat();
        cases.extend([(bytes, 0), (cut, 0), (inside, 2)]);
    }
    cases
}

/// Zero, one and 127 in all lengths from two to ten bytes.
fn overlong_varints() -> Vec<(Vec<u8>, u64)> {
    let mut cases = Vec::new();
    for lowest in [0x00u8, 0x01, 0x7f] {
        for length in 2..=10 {
            let mut bytes = vec![0x80; length];
            bytes[0] |= lowest;
            bytes[length - 1] = 0;
            cases.push((bytes, 0));
        }
    }
    cases
}

/// Ten-byte forms, whose last byte counts by its lowest bit only, and what follows a tenth byte that goes on.
fn tenth_and_eleventh_bytes() -> Vec<(Vec<u8>, u64)> {
    let mut cases = Vec::new();
    let tenth = (0x00..=0x0fu8).chain([0x10, 0x20, 0x3f, 0x40, 0x41, 0x55, 0x7e, 0x7f]);
    for (index, last) in tenth.enumerate() {
        let nine = [0xff, 0x80][index % 2];
        cases.push(([vec![nine; 9], vec![last]].concat(), 0));
    }
    for tenth in [0x80, 0x81, 0xff] {
        let ten = [vec![0xff; 9], vec![tenth]].concat();
        for eleventh in [0x00, 0x01, 0x7f, 0x80, 0xff] {
            cases.push(([&ten[..], &[eleventh]].concat(), 0));
        }
        cases.push((ten, 0));
    }
    cases.push((vec![0xff; 12], 1));
    cases.push((vec![0xff; 12], 2));
    cases
}

fn random_varint(source: &mut Source) -> (Vec<u8>, u64) {
    let goes_on = [0x00, 0x80][source.below(2) as usize];
    let length = source.below(14) as usize;
    let mut bytes = source.bytes(length);
    bytes.iter_mut().for_each(|byte| *byte |= goes_on);
    if source.below(3) > 0 {
        bytes.push(source.byte() & 0x7f);
    }
    let place = source.below(bytes.len() as u64 + 2);
    (bytes, place)
}

fn varint_record(bytes: &[u8], place: u64) -> Record {
    let (mut next, mut next_signed) = (place as usize, place as usize);
    let unsigned = read_uvarint(bytes, &mut next).map_err(|e| refusal(Call::ReadVarint, &e));
    let signed = read_varint(bytes, &mut next_signed).map_err(|e| refusal(Call::ReadVarint, &e));
    assert_eq!(unsigned.map(zigzag_decode), signed);
    assert_eq!(next, next_signed);

    let mut record = Record::new(VARINT);
    record.u64(place);
    write_answer(&mut record, unsigned.err());
    record.u64(unsigned.unwrap_or(0));
    record.i64(signed.unwrap_or(0));
    record.u64(unsigned.map_or(0, |_| next as u64));
    record.u16(bytes.len());
    record.bytes(bytes);
    record
}

/// Number 0 for accepted; whether the error holds an offset; the offset, 0 where there is none.
fn write_answer(record: &mut Record, refused: Option<Refusal>) {
    let offset = refused.map_or(Some(0), |refused| refused.offset);
    record.u8(refused.map_or(0, |refused| refused.number));
    record.u8(u8::from(offset.is_some()));
    record.u64(offset.unwrap_or(0));
}

/// At every width: nine values of full width, so that all bit positions within a byte occur and high bits are
/// dropped; and a few values that fit, among them the greatest.
fn packings(source: &mut Source) -> Vec<(u32, Vec<u64>)> {
    let mut cases = Vec::new();
    for width in 0..=64u32 {
        cases.push((width, (0..9).map(|_| source.word()).collect()));
        let greatest = u64::MAX.checked_shr(64 - width).unwrap_or(0);
        let count = width * 5 % 8;
        let fitting = (0..count).map(|i| [greatest, source.word() & greatest, 0][i as usize % 3]);
        cases.push((width, fitting.collect()));
    }
    for width in [65, 66, 128, 255] {
        cases.push((width, vec![]));
        cases.push((width, vec![1, 2]));
    }
    cases
}

fn pack_record(width: u32, values: &[u64]) -> Record {
    let mut packed = Vec::new();
    let refused = pack(values, width, &mut packed).map_err(|e| refusal(Call::Pack, &e)).err();
    if refused.is_none() {
        assert_eq!(packed.len(), packed_len(values.len(), width));
    }

    let mut record = Record::new(PACK);
    record.u32(width as usize);
    write_answer(&mut record, refused);
    record.u32(values.len());
    record.words(values);
    record.u32(packed.len());
    record.bytes(&packed);
    record
}

/// At every width: a body of just the length needed with its spare bits at random, one with bytes to spare, one
/// a byte too short. Besides, widths above 64, which are refused whatever the body is, and empty bodies.
fn unpackings(source: &mut Source) -> Vec<(u32, usize, Vec<u8>)> {
    let mut cases = Vec::new();
    for width in 0..=64u32 {
        let few = (width * 3 % 8) as usize;
        let nine = packed_len(9, width);
        cases.push((width, 9, source.bytes(nine)));
        cases.push((width, few, source.bytes(packed_len(few, width) + 3)));
        if width > 0 {
            cases.push((width, 9, source.bytes(nine - 1)));
            cases.push((width, few, vec![]));
        }
    }
    for width in [65, 66, 127, 128, 255] {
        cases.push((width, 0, vec![]));
        cases.push((width, 1, vec![0x5a; 9]));
        cases.push((width, 3, vec![0x5a; 2]));
    }
    cases
}

fn unpack_record(width: u32, count: usize, body: &[u8]) -> Record {
    let answer = unpack(body, width, count).map_err(|e| refusal(Call::Unpack, &e));
    let values = answer.as_deref().unwrap_or(&[]);

    let mut record = Record::new(UNPACK);
    record.u32(width as usize);
    record.u32(count);
    write_answer(&mut record, answer.as_ref().err().copied());
    record.u32(body.len());
    record.bytes(body);
    record.u32(values.len());
    record.words(values);
    record
}

fn packed_lengths() -> impl Iterator<Item = (usize, u32)> {
    let counts = [0, 1, 7, 8, 9, 127, 128, 129, 1000, 1 << 20, (1 << 24) - 1, 1 << 24];
    let widths = [0, 1, 3, 7, 8, 9, 13, 31, 32, 33, 63, 64];
    counts.into_iter().flat_map(move |count| widths.map(|width| (count, width)))
}

fn packed_length_record(count: usize, width: u32) -> Record {
    let mut record = Record::new(PACKED_LENGTH);
    record.u32(count);
    record.u32(width as usize);
    record.u32(packed_len(count, width));
    record
}

/// At every width three of these counts: about a block of deltas, about two, and more.
fn long_packings() -> impl Iterator<Item = (u32, usize)> {
    const COUNTS: [usize; 11] = [63, 64, 65, 127, 128, 129, 200, 255, 256, 257, 1000];
    (0..=64u32).flat_map(|width| [0, 4, 8].map(|skip| (width, COUNTS[(width as usize + skip) % 11])))
}

fn long_pack_record(width: u32, count: usize, seed: u64) -> Record {
    let mut state = seed;
    let values: Vec<u64> = (0..count)
        .map(|_| {
            state = next_state(state);
            state ^ (state >> 33) // the lowest bits of the states alone repeat too soon
        })
        .collect();
    let mut packed = Vec::new();
    pack(&values, width, &mut packed).expect("a width of at most 64");
    let back = unpack(&packed, width, count).expect("the bytes just packed");

    let mut record = Record::new(LONG_PACK);
    record.u32(width as usize);
    record.u32(count);
    record.u64(seed);
    record.u32(packed.len());
    record.u64(checksum(packed));
    record.u64(checksum_words(&back));
    record
}
