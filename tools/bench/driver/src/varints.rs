//! Varints in a row. Before a row is timed, both sides must give the same bytes or values.

use crate::inputs::Mix;
use crate::options::Options;
use crate::ours;
use crate::row::Row;
use crate::timing::{alternate, Times};
use basalt_common::Result;
use basalt_encoding::varint;
use std::hint::black_box;

const WANTED: Option<f64> = Some(1.0);
const OLD: u8 = 0xa5;
const SPARE: usize = 16;

/// The original's file once more, for a `read_uvarint` with one caller: only then does the compiler inline it.
#[allow(dead_code)]
#[path = "../original/crates/basalt-encoding/src/varint.rs"]
mod varint_again;

/// How the original's `read_uvarint` comes into the loop over a row.
#[derive(Clone, Copy)]
pub enum Reading {
    /// Inlined, as ours is in our library.
    Inlined,
    /// Called for each varint, as it is where it has several callers; the original does not mark it `#[inline]`.
    Called,
}

/// The loop of our `bench_read_uvarints`.
#[inline(always)]
fn original_row(bytes: &[u8], out: &mut [u64], read: impl Fn(&[u8], &mut usize) -> Result<u64>) -> usize {
    let mut pos = 0;
    let mut i = 0;
    while i < out.len() {
        let Ok(value) = read(bytes, &mut pos) else {
            return i;
        };
        out[i] = value;
        i += 1;
    }
    i
}

#[inline(never)]
fn original_inlined(bytes: &[u8], out: &mut [u64]) -> usize {
    original_row(bytes, out, varint_again::read_uvarint)
}

#[inline(never)]
fn original_called(bytes: &[u8], out: &mut [u64]) -> usize {
    let read: fn(&[u8], &mut usize) -> Result<u64> = black_box(varint::read_uvarint);
    original_row(bytes, out, read)
}

/// The loop of our `bench_write_uvarints`. The original appends to a Vec that is emptied and keeps its room.
#[inline(never)]
fn original_write(values: &[u64], out: &mut Vec<u8>) {
    out.clear();
    for &value in values {
        varint::write_uvarint(value, out);
    }
}

/// Reads varints in a row, as many as the slice has places, and says how many.
type ReadRow = fn(&[u8], &mut [u64]) -> usize;

fn row(operation: &'static str, mix: Mix, times: Times, options: &Options) -> Row {
    Row { operation, encoding: None, input: mix.name(), count: options.count, times, wanted: WANTED }
}

pub fn read_row(reading: Reading, mix: Mix, options: &Options) -> Row {
    let (operation, original_read): (_, ReadRow) = match reading {
        Reading::Inlined => ("read_uvarint, inlined", original_inlined),
        Reading::Called => ("read_uvarint, called", original_called),
    };
    let values = mix.values(options.count);
    let mut bytes = Vec::new();
    original_write(&values, &mut bytes);
    let mut theirs = vec![u64::from(OLD); options.count];
    let mut out = vec![u64::from(OLD); options.count];
    assert_eq!(original_read(&bytes, &mut theirs), options.count);
    assert_eq!(ours::read_uvarints(&bytes, &mut out), options.count);
    assert!(theirs == values && out == values);
    let times = alternate(
        options.rounds,
        options.count,
        || {
            black_box(original_read(black_box(&bytes), black_box(&mut theirs)));
        },
        || {
            black_box(ours::read_uvarints(black_box(&bytes), black_box(&mut out)));
        },
    );
    row(operation, mix, times, options)
}

pub fn write_row(mix: Mix, options: &Options) -> Row {
    let values = mix.values(options.count);
    let mut bytes = Vec::new();
    original_write(&values, &mut bytes);
    let mut out = vec![OLD; bytes.len() + SPARE];
    assert_eq!(ours::write_uvarints(&values, &mut out), bytes.len());
    assert!(out[..bytes.len()] == bytes && out[bytes.len()..] == [OLD; SPARE]);
    let times = alternate(
        options.rounds,
        options.count,
        || {
            original_write(black_box(&values), &mut bytes);
            black_box(&bytes);
        },
        || {
            black_box(ours::write_uvarints(black_box(&values), black_box(&mut out)));
        },
    );
    row("write_uvarint", mix, times, options)
}
