//! Chunks that were written, then cut or damaged, and chunks that never were written.

use crate::compare::reading::chunk;
use crate::families::random_columns::columns;
use crate::job::{Job, Setting};
use crate::numbers::Source;
use crate::pieces::{varint_of_length, Pieces};
use crate::reading::{chunk_of, ENCODINGS};
use basalt_encoding::varint::read_uvarint;

/// Bytes that are limits somewhere, as a width, a varint's end or a count.
const EDGES: [u8; 12] = [0, 1, 2, 0x08, 0x3f, 0x40, 0x41, 0x7f, 0x80, 0x81, 0xfe, 0xff];

/// Counts about the limits, and far above them.
const COUNTS: [u64; 12] = [0, 1, 2, 127, 128, 129, 16_384, (1 << 24) + 1, 1 << 32, 1 << 63, u64::MAX - 1, u64::MAX];

pub fn cut_jobs(setting: Setting) -> usize {
    setting.of([1, 16, 500])
}

/// Every beginning of the chunks of columns of a few keys, or of more than a block of deltas.
pub fn run_cut(job: &mut Job) {
    for written in written(job) {
        let names = names_for(&written, &mut job.source);
        for length in 0..written.len() {
            chunk(job, &written[..length], &names);
        }
    }
}

pub fn damaged_jobs(setting: Setting) -> usize {
    setting.of([1, 60, 2_000])
}

pub fn run_damaged(job: &mut Job) {
    for written in written(job) {
        for _ in 0..job.setting.of([2, 12, 12]) {
            let damaged = damaged(written.clone(), &mut job.source);
            let names = names_for(&written, &mut job.source);
            chunk(job, &damaged, &names);
        }
    }
    for _ in 0..job.setting.of([20, 400, 400]) {
        let random = random(&mut job.source);
        let names = names_for(&random, &mut job.source);
        chunk(job, &random, &names);
    }
}

/// The chunks of a column of each shape in each encoding.
fn written(job: &mut Job) -> Vec<Vec<u8>> {
    let length = match job.number % 8 {
        7 if job.setting != Setting::Small => 126 + job.source.below(10),
        _ => job.source.below(14),
    };
    let columns = columns(length as usize, &mut job.source);
    columns.iter().flat_map(|column| ENCODINGS.map(|encoding| chunk_of(column, encoding))).collect()
}

/// The reading without a name, by the chunk's own id and by another.
fn names_for(chunk: &[u8], source: &mut Source) -> [u8; 3] {
    [0, chunk[0], 1 + source.below(7) as u8]
}

/// A chunk with a change that storage or a careless writer may make.
pub fn damaged(mut chunk: Vec<u8>, source: &mut Source) -> Vec<u8> {
    let at = source.below(chunk.len() as u64) as usize;
    match source.below(9) {
        0 => chunk[at] ^= 1 << source.below(8),
        1 => chunk[at] = source.byte(),
        2 => chunk[at] = EDGES[source.below(EDGES.len() as u64) as usize],
        3 => chunk.insert(at, source.byte()),
        4 => drop(chunk.remove(at)),
        5 => chunk = with_other_count(&chunk, source),
        6 => padded(&mut chunk, at, source),
        7 => chunk.extend_from_within(..at + 1),
        _ => {
            chunk = damaged(damaged(chunk, source), source);
            chunk.truncate(at + 1);
        }
    }
    if chunk.is_empty() {
        // so that it can be damaged again
        chunk.push(source.byte());
    }
    chunk
}

/// The header's count becomes another, in a varint that may be longer than it needs to be.
fn with_other_count(chunk: &[u8], source: &mut Source) -> Vec<u8> {
    let mut body = 2;
    let Ok(count) = read_uvarint(chunk, &mut body) else {
        return chunk.to_vec();
    };
    let edge = COUNTS[source.below(COUNTS.len() as u64) as usize];
    let other = [count.wrapping_add(1), count.wrapping_sub(1), edge, source.below(40)][source.below(4) as usize];
    let length = 10 - source.below(8) as usize;
    let other = match source.below(4) {
        0 => varint_of_length(other, length),
        _ => Pieces::of(0).unsigned(other).done().split_off(2),
    };
    [&chunk[..2], &other, &chunk[body..]].concat()
}

/// A byte that may end a varint goes on instead, with one to nine bytes that add nothing.
fn padded(chunk: &mut Vec<u8>, at: usize, source: &mut Source) {
    chunk[at] |= 0x80;
    let more = source.below(9) as usize;
    let padding = [vec![0x80; more], vec![0]].concat();
    chunk.splice(at + 1..at + 1, padding);
}

/// Bytes behind a header with a small count; small bytes are likelier to pass for widths, totals and lengths.
fn random(source: &mut Source) -> Vec<u8> {
    let id = 1 + source.below(7) as u8;
    let length = source.below(24) as usize;
    let bytes = source.bytes(length);
    let small: Vec<u8> = bytes.iter().map(|byte| byte % 8).collect();
    match source.below(8) {
        0 => [&[id], &bytes[..]].concat(),
        1 => Pieces::of(id).bytes(&bytes).done(),
        2..=4 => Pieces::header(id, source.below(9)).bytes(&bytes).done(),
        _ => Pieces::header(id, source.below(9)).bytes(&small).done(),
    }
}
