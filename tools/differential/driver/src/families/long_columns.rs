//! Columns of as many keys as there may be, and of one more.

use crate::compare::packing::{pack, pack_too_many, unpack};
use crate::compare::{analysis, column::column, writing};
use crate::job::{Job, Setting};
use crate::numbers::Source;
use basalt_encoding::{bitpack::packed_len, MAX_CHUNK_ELEMENTS};

/// The varint of the count has a fourth byte from 2^21 on.
const LENGTHS: [usize; 3] = [(1 << 21) - 1, 1 << 21, MAX_CHUNK_ELEMENTS];

type Key = fn(usize, &mut Source) -> i64;

const KEYS: [Key; 4] = [
    |_, _| 0,
    |place, _| 1_000_000 + 3 * place as i64,
    // 16,384 distinct keys, far apart
    |_, source| source.below(16_384).wrapping_mul(0x9e37_79b9_7f4a_7c15) as i64,
    |_, source| source.word() as i64,
];

pub fn jobs(setting: Setting) -> usize {
    setting.of([0, 1, 2 + LENGTHS.len() * KEYS.len()])
}

pub fn run(job: &mut Job) {
    let number = match job.number {
        0 => return too_many(job),
        1 => return packed(job),
        number => number - 2,
    };
    let (length, key) = (LENGTHS[number / KEYS.len()], KEYS[number % KEYS.len()]);
    let keys: Vec<i64> = (0..length).map(|place| key(place, &mut job.source)).collect();
    column(job, &keys);
}

/// As many values as there may be, packed at a width that ends on no byte, and unpacked.
fn packed(job: &mut Job) {
    let values: Vec<u64> = (0..MAX_CHUNK_ELEMENTS).map(|_| job.source.word()).collect();
    pack(job, &values, 13);
    let bytes = job.source.bytes(packed_len(MAX_CHUNK_ELEMENTS, 13));
    unpack(job, &bytes, 13, MAX_CHUNK_ELEMENTS);
}

/// One key more than 2^24, in every call that takes a column or values.
fn too_many(job: &mut Job) {
    let keys = vec![0; MAX_CHUNK_ELEMENTS + 1];
    writing::too_many(job, &keys);
    analysis::too_many(job, &keys);
    let values = vec![0; MAX_CHUNK_ELEMENTS + 1];
    for width in [0, 1, 65] {
        pack_too_many(job, &values, width);
    }
}
