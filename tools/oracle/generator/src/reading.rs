//! The original's calls for reading and writing, with their answers in document 01's terms.

use basalt_common::Result;
use basalt_encoding::{
    decode_integers, encode_integers, BitPackedCodec, Codec, DeltaBinaryPackedCodec, DictionaryCodec, Encoding,
    FrameOfReferenceCodec, PlainCodec, RunLengthCodec, VarintCodec,
};

use crate::refusal::{refusal, Call, Refusal};

/// The encodings in the order of their ids, 1 to 7.
pub const ENCODINGS: [Encoding; 7] = [
    Encoding::Plain,
    Encoding::Varint,
    Encoding::BitPacked,
    Encoding::FrameOfReference,
    Encoding::RunLength,
    Encoding::Dictionary,
    Encoding::DeltaBinaryPacked,
];

/// Reads a chunk: unnamed for name 0, else by the codec of that id.
pub fn read(name: u8, chunk: &[u8]) -> Result<Vec<i64>, Refusal> {
    let (call, answer) = match name {
        0 => (Call::Read, decode_integers(chunk)),
        _ => (Call::ReadNamed, read_named(name, chunk)),
    };
    answer.map_err(|error| refusal(call, &error))
}

fn read_named(name: u8, chunk: &[u8]) -> Result<Vec<i64>> {
    match name {
        1 => PlainCodec.decode(chunk),
        2 => VarintCodec.decode(chunk),
        3 => BitPackedCodec.decode(chunk),
        4 => FrameOfReferenceCodec.decode(chunk),
        5 => RunLengthCodec.decode(chunk),
        6 => DictionaryCodec.decode(chunk),
        7 => DeltaBinaryPackedCodec.decode(chunk),
        _ => panic!("{name} names no integer encoding"),
    }
}

pub fn write(column: &[i64], encoding: Encoding) -> Result<Vec<u8>, Refusal> {
    let mut chunk = Vec::new();
    encode_integers(column, encoding, &mut chunk).map_err(|error| refusal(Call::Write, &error))?;
    Ok(chunk)
}

/// The chunk of a column. Writing in the encodings 1 to 7 is never refused by the original.
pub fn chunk_of(column: &[i64], encoding: Encoding) -> Vec<u8> {
    write(column, encoding).expect("an integer encoding")
}
