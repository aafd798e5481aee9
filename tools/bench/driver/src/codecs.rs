//! Whole columns, encoded and decoded in each encoding. Before a case is timed, both sides must give the same bytes or keys.

use crate::options::Options;
use crate::ours;
use crate::row::Row;
use crate::shapes::{Shape, SHAPES};
use crate::timing::{alternate, Times};
use basalt_encoding::{analyze_integers, decode_integers, encode_integers, Encoding, MAX_DICTIONARY_CARDINALITY};
use std::hint::black_box;

/// The encodings in the order of their ids, 1 to 7.
const ENCODINGS: [Encoding; 7] = [
    Encoding::Plain,
    Encoding::Varint,
    Encoding::BitPacked,
    Encoding::FrameOfReference,
    Encoding::RunLength,
    Encoding::Dictionary,
    Encoding::DeltaBinaryPacked,
];

/// Document 01's number where a Dictionary would have more than 16,384 distinct values, which the original writes.
const TOO_MANY_DISTINCT: u32 = 23;

/// What a buffer holds before it is filled; it is lent with places to spare, which must keep it.
const OLD: u8 = 0xa5;
const SPARE: usize = 16;

/// No chunk has more bytes a value, nor more before the first: a run's key and length, and a header with totals.
const LONGEST: usize = 20;
const HEADER: usize = 64;

/// No row is to be below this.
const WANTED: f64 = 0.8;

/// The rows of encoding and then of decoding: each encoding with each shape that document 01 writes in it.
pub fn rows(options: &Options) -> Vec<Row> {
    let encodes = operation("encode", options, |case| case.encode(options.rounds));
    let decodes = operation("decode", options, |case| case.decode(options.rounds));
    encodes.into_iter().chain(decodes).collect()
}

fn operation(name: &'static str, options: &Options, times: impl Fn(&Case) -> Times) -> Vec<Row> {
    let row = |encoding: Encoding, shape: &Shape| {
        let column = shape.column(options.count);
        let case = Case::new(&column, encoding)?;
        Some(Row {
            operation: name,
            encoding: Some(encoding),
            input: shape.name.to_string(),
            count: options.count,
            times: times(&case),
            wanted: Some(WANTED),
        })
    };
    ENCODINGS.iter().flat_map(|&encoding| SHAPES.iter().filter_map(move |shape| row(encoding, shape))).collect()
}

/// A column, and its chunk in an encoding as the original writes it.
pub struct Case<'a> {
    column: &'a [i64],
    encoding: Encoding,
    chunk: Vec<u8>,
}

impl Case<'_> {
    /// None where document 01 does not write the column in this encoding.
    pub fn new(column: &[i64], encoding: Encoding) -> Option<Case<'_>> {
        let mut case = Case { column, encoding, chunk: Vec::new() };
        if encoding == Encoding::Dictionary && !analyze_integers(column).cardinality.is_exact() {
            let refusal = ours::Refusal { number: TOO_MANY_DISTINCT, offset: 0 };
            assert_eq!(case.encode_ours(&mut scratch(), &mut []), Err(refusal));
            return None;
        }
        encode_integers(column, encoding, &mut case.chunk).unwrap();
        Some(case)
    }

    fn encode_ours(&self, scratch: &mut [i64], out: &mut [u8]) -> ours::Answer {
        ours::encode_integers(black_box(self.column), u32::from(self.encoding.as_u8()), scratch, out)
    }

    /// The original appends to a Vec that is emptied and keeps its room. Ours fills a lent slice, as long as a caller lends who does not
    /// know the chunk's length yet, and is lent a scratch.
    pub fn encode(&self, rounds: usize) -> Times {
        self.assert_same_chunk();
        let mut bytes = self.chunk.clone();
        let mut scratch = scratch();
        let mut out = vec![OLD; LONGEST * self.column.len() + HEADER];
        alternate(
            rounds,
            self.column.len(),
            || {
                bytes.clear();
                encode_integers(black_box(self.column), self.encoding, &mut bytes).unwrap();
                black_box(&bytes);
            },
            || {
                black_box(self.encode_ours(&mut scratch, black_box(&mut out))).unwrap();
            },
        )
    }

    fn assert_same_chunk(&self) {
        let size = self.chunk.len();
        let mut out = vec![OLD; size + SPARE];
        assert_eq!(self.encode_ours(&mut scratch(), &mut out), Ok(size));
        assert!(out[..size] == self.chunk && out[size..] == [OLD; SPARE]);
    }

    /// The original returns a new Vec, which its caller frees: both are part of its time.
    pub fn decode(&self, rounds: usize) -> Times {
        let count = self.column.len();
        let mut keys = vec![i64::from(OLD); count + SPARE];
        self.assert_same_keys(&mut keys);
        alternate(
            rounds,
            count,
            || {
                black_box(decode_integers(black_box(&self.chunk)).unwrap());
            },
            || {
                black_box(ours::decode_integers(black_box(&self.chunk), false, black_box(&mut keys))).unwrap();
            },
        )
    }

    /// Ours, read strictly or not, and the original give the column back.
    fn assert_same_keys(&self, keys: &mut [i64]) {
        let count = self.column.len();
        assert!(decode_integers(&self.chunk).unwrap() == self.column);
        for strict in [true, false] {
            keys.fill(i64::from(OLD));
            assert_eq!(ours::decode_integers(&self.chunk, strict, keys), Ok(count));
            assert!(keys[..count] == *self.column && keys[count..] == [i64::from(OLD); SPARE]);
        }
    }
}

fn scratch() -> Vec<i64> {
    vec![0; MAX_DICTIONARY_CARDINALITY]
}
