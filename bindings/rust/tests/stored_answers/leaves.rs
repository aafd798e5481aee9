//! leaves.bin: numbers, varints, packing.

use warpboulder::bitpack::{pack, packed_len, required_width, unpack};
use warpboulder::varint::{
    read_uvarint, read_varint, uvarint_len, varint_len, write_uvarint, write_varint, zigzag_decode, zigzag_encode,
};

use crate::file::{checksum, each_record, states, Fields};
use crate::Answer;

#[test]
fn leaves() {
    each_record("leaves.bin", |kind, fields| match kind {
        1 => number(fields),
        2 => varint_read(fields),
        3 => packing(fields),
        4 => unpacking(fields),
        5 => packed_length(fields),
        6 => packed_and_unpacked(fields),
        _ => panic!("there is no kind {kind}"),
    });
}

fn number(fields: &mut Fields) {
    let x = fields.u64();
    assert_eq!(zigzag_encode(x as i64), fields.u64());
    assert_eq!(zigzag_decode(x), fields.i64());
    assert_eq!(required_width(x), u32::from(fields.u8()));

    let (length, bytes) = (usize::from(fields.u8()), fields.take(10));
    let mut out = Vec::new();
    write_uvarint(x, &mut out);
    assert_eq!((uvarint_len(x), out.as_slice()), (length, &bytes[..length]));

    let (length, bytes) = (usize::from(fields.u8()), fields.take(10));
    let mut out = Vec::new();
    write_varint(x as i64, &mut out);
    assert_eq!((varint_len(x as i64), out.as_slice()), (length, &bytes[..length]));
}

fn varint_read(fields: &mut Fields) {
    let place = fields.u64() as usize;
    let answer = Answer::read(fields);
    let (unsigned, signed, next) = (fields.u64(), fields.i64(), fields.u64() as usize);
    let size = fields.u16();
    let bytes = fields.take(size.into());
    let mut pos = place;
    if let Some(value) = answer.agreed(read_uvarint(bytes, &mut pos)) {
        assert_eq!((value, pos), (unsigned, next));
    }
    let mut pos = place;
    if let Some(value) = answer.agreed(read_varint(bytes, &mut pos)) {
        assert_eq!((value, pos), (signed, next));
    }
}

fn packing(fields: &mut Fields) {
    let width = fields.u32();
    let answer = Answer::read(fields);
    let count = fields.u32();
    let values = fields.numbers(count as usize);
    let length = fields.u32();
    let packed = fields.take(length as usize);
    let mut out = Vec::new();
    answer.agreed(pack(&values, width, &mut out));
    assert_eq!(out, packed);
}

fn unpacking(fields: &mut Fields) {
    let (width, count) = (fields.u32(), fields.u32());
    let answer = Answer::read(fields);
    let length = fields.u32();
    let body = fields.take(length as usize);
    let unpacked = fields.u32();
    let values = fields.numbers(unpacked as usize);
    let ours = answer.agreed(unpack(body, width, count as usize));
    assert_eq!(ours.unwrap_or_default(), values);
}

fn packed_length(fields: &mut Fields) {
    let (count, width) = (fields.u32(), fields.u32());
    assert_eq!(packed_len(count as usize, width), fields.u32() as usize);
}

fn packed_and_unpacked(fields: &mut Fields) {
    let (width, count, seed) = (fields.u32(), fields.u32() as usize, fields.u64());
    let values: Vec<u64> = states(seed).take(count).map(|state| state ^ (state >> 33)).collect();
    let mut out = Vec::new();
    pack(&values, width, &mut out).unwrap();
    assert_eq!((out.len(), checksum(out.iter().copied())), (fields.u32() as usize, fields.u64()));
    let back = unpack(&out, width, count).unwrap();
    assert_eq!(checksum(back.iter().flat_map(|value| value.to_le_bytes())), fields.u64());
}
