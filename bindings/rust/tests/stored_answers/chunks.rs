//! chunks.bin: chunks good and damaged, each by eight readings.

use warpboulder::{decode_integers, decode_named, Encoding, Result};

use crate::file::{checksum_of_keys, each_record, Fields};
use crate::Answer;

#[test]
fn chunks() {
    each_record("chunks.bin", |kind, fields| {
        let _origin = fields.u8();
        let length = fields.u16();
        let chunk = fields.take(length.into());
        let columns = accepted_columns(fields, chunk);
        let count = fields.u32() as usize;
        let expected = match kind {
            1 => checksum_of_keys(&fields.keys(count)),
            2 => fields.u64(),
            _ => panic!("there is no kind {kind}"),
        };
        if let Some((first, others)) = columns.split_first() {
            assert_eq!((first.len(), checksum_of_keys(first)), (count, expected));
            assert!(others.iter().all(|column| column == first));
        }
    });
}

/// Checks the answers of all eight readings, and gives the columns of those that accept.
fn accepted_columns(fields: &mut Fields, chunk: &[u8]) -> Vec<Vec<i64>> {
    let mut columns = Vec::new();
    let mut checked = 0;
    for _ in 0..fields.u8() {
        let readings = fields.u8();
        let answer = Answer { number: fields.u8().into(), offset: Some(fields.u32().into()) };
        for reading in (0..8).filter(|reading| readings >> reading & 1 == 1) {
            columns.extend(answer.agreed(read(chunk, reading)));
        }
        checked |= readings;
    }
    assert_eq!(checked, 0xFF, "every reading has an answer");
    columns
}

/// Reading 0 names no encoding, and the others name the encoding of their number.
fn read(chunk: &[u8], reading: u8) -> Result<Vec<i64>> {
    match Encoding::from_u8(reading) {
        None => decode_integers(chunk),
        Some(encoding) => decode_named(chunk, encoding),
    }
}
