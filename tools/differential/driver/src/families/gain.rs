//! Columns whose shortest chunk is Varint's, of a length about the longest one that gains enough at a level: "If not Plain and the
//! length as f64 exceeds plain times (1.0 - gain) .. then Plain".

use crate::compare::column::column;
use crate::job::{Job, Setting};
use crate::numbers::Source;
use basalt_encoding::varint::{uvarint_len, zigzag_decode};

/// Parts of Plain's length, in hundredths, that the levels leave.
const PARTS: [usize; 3] = [80, 95, 99];

/// The length is tried from so many bytes less to so many more.
const ABOUT: usize = 3;

pub fn jobs(setting: Setting) -> usize {
    setting.of([1, 30, 1_000])
}

pub fn run(job: &mut Job) {
    // document 01's sample has 132 keys
    let count = if job.number == 0 { 132 } else { 40 + job.source.below(500) as usize };
    for part in PARTS {
        let header = 2 + uvarint_len(count as u64);
        let longest = (header + 8 * count) * part / 100;
        for length in longest - ABOUT..=longest + ABOUT {
            let keys = of_varint_length(count, length - header, &mut job.source);
            column(job, &keys);
        }
    }
}

/// Keys whose signed varints have so many bytes in all. The least and the greatest key are among them, so that no packed chunk is
/// shorter than Plain.
fn of_varint_length(count: usize, bytes: usize, source: &mut Source) -> Vec<i64> {
    let (rest, bytes) = (count - 2, bytes - 20);
    let mut keys = vec![i64::MIN, i64::MAX];
    let longer = bytes % rest;
    keys.extend((0..rest).map(|place| key_of_length(bytes / rest + usize::from(place < longer), source)));
    keys
}

/// A key whose signed varint has so many bytes, 2 to 9.
fn key_of_length(bytes: usize, source: &mut Source) -> i64 {
    let least = 1u64 << (7 * (bytes - 1));
    zigzag_decode(least + source.below(127 * least))
}
