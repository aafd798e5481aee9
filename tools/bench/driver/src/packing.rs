//! Packing and unpacking. Before a row is timed, both sides must give the same bytes or values.

use crate::options::Options;
use crate::row::Row;
use crate::timing::{alternate, Times};
use crate::{inputs, ours};
use basalt_encoding::bitpack;
use std::hint::black_box;

pub const WIDTHS: [u32; 9] = [0, 1, 7, 8, 13, 32, 33, 57, 64];

/// What a buffer holds before it is filled; it is lent with places to spare, which must keep it.
const OLD: u8 = 0xa5;
const SPARE: usize = 16;

fn wanted(width: u32) -> Option<f64> {
    match width {
        1 | 64 => Some(2.0),
        7 | 13 | 33 | 57 => Some(3.0),
        _ => None,
    }
}

fn row(operation: &'static str, width: u32, times: Times, options: &Options) -> Row {
    let input = format!("width {width}");
    Row { operation, encoding: None, input, count: options.count, times, wanted: wanted(width) }
}

/// The original appends to a Vec that is emptied and keeps its room.
pub fn pack_row(width: u32, options: &Options) -> Row {
    let values = inputs::of_width(width, options.count);
    let mut bytes = Vec::new();
    bitpack::pack(&values, width, &mut bytes).unwrap();
    let mut out = vec![OLD; bytes.len() + SPARE];
    assert_eq!(ours::pack(&values, width, &mut out), Ok(bytes.len()));
    assert!(out[..bytes.len()] == bytes && out[bytes.len()..] == [OLD; SPARE]);
    let times = alternate(
        options.rounds,
        options.count,
        || {
            bytes.clear();
            bitpack::pack(black_box(&values), width, &mut bytes).unwrap();
            black_box(&bytes);
        },
        || {
            black_box(ours::pack(black_box(&values), width, black_box(&mut out))).unwrap();
        },
    );
    row("pack", width, times, options)
}

/// The original returns a new Vec, which its caller frees: both are part of its time.
pub fn unpack_row(width: u32, options: &Options) -> Row {
    let values = inputs::of_width(width, options.count);
    let mut bytes = Vec::new();
    bitpack::pack(&values, width, &mut bytes).unwrap();
    assert!(bitpack::unpack(&bytes, width, options.count).unwrap() == values);
    let mut out = vec![u64::from(OLD); options.count + SPARE];
    assert_eq!(ours::unpack(&bytes, width, options.count, &mut out), Ok(options.count));
    assert!(out[..options.count] == values && out[options.count..] == [u64::from(OLD); SPARE]);
    let times = alternate(
        options.rounds,
        options.count,
        || {
            black_box(bitpack::unpack(black_box(&bytes), width, options.count).unwrap());
        },
        || {
            black_box(ours::unpack(black_box(&bytes), width, options.count, black_box(&mut out))).unwrap();
        },
    );
    row("unpack", width, times, options)
}
