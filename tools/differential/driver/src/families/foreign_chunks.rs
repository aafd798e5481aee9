//! Chunks that are read though no writing makes them: wider than they need to be, with varints that are padded, runs that are not
//! longest or have no keys, entries in any order, other block sizes, spare bits, and bytes after the body.

use crate::compare::reading::chunk;
use crate::job::{Job, Setting};
use crate::numbers::Source;
use crate::pieces::{varint_of_length, Pieces};
use basalt_encoding::bitpack::{pack, packed_len, required_width};
use basalt_encoding::varint::{uvarint_len, zigzag_encode};

pub fn jobs(setting: Setting) -> usize {
    setting.of([1, 40, 1_500])
}

pub fn run(job: &mut Job) {
    let count = match job.number % 16 {
        15 if job.setting != Setting::Small => 1 + job.source.below(5_000),
        _ => job.source.below(300),
    };
    let bodies = [plain, varints, bit_packed, frame, runs, dictionary, delta];
    for (id, body) in (1..).zip(bodies) {
        for _ in 0..job.setting.of([2, 10, 10]) {
            let source = &mut job.source;
            let header = number(Pieces::of(id), count, source);
            let mut bytes = body(header, count, source).done();
            if source.below(4) == 0 {
                let length = 1 + source.below(12) as usize;
                bytes.extend(source.bytes(length));
            }
            chunk(job, &bytes, &[0, id]);
        }
    }
}

/// A varint, in one of 32 cases longer than it needs to be.
fn number(pieces: Pieces, number: u64, source: &mut Source) -> Pieces {
    if source.below(32) > 0 {
        return pieces.unsigned(number);
    }
    let shortest = uvarint_len(number);
    let length = shortest + source.below(11 - shortest as u64) as usize;
    pieces.bytes(&varint_of_length(number, length))
}

fn any_number(pieces: Pieces, source: &mut Source) -> Pieces {
    let any = source.any_width();
    number(pieces, any, source)
}

fn plain(pieces: Pieces, count: u64, source: &mut Source) -> Pieces {
    (0..count).fold(pieces, |made, _| made.word(source.word() as i64))
}

fn varints(pieces: Pieces, count: u64, source: &mut Source) -> Pieces {
    (0..count).fold(pieces, |made, _| any_number(made, source))
}

/// A width and random bytes of so many values.
fn packed(pieces: Pieces, count: u64, source: &mut Source) -> Pieces {
    let width = source.below(65) as u8;
    let bytes = source.bytes(packed_len(count as usize, width.into()));
    pieces.byte(width).bytes(&bytes)
}

fn bit_packed(pieces: Pieces, count: u64, source: &mut Source) -> Pieces {
    packed(pieces, count, source)
}

fn frame(pieces: Pieces, count: u64, source: &mut Source) -> Pieces {
    let least = source.word() as i64;
    packed(pieces.word(least), count, source)
}

/// Runs of some keys, or of none, and the last one of what is left.
fn runs(pieces: Pieces, count: u64, source: &mut Source) -> Pieces {
    let total = source.below(count + 1).max(1).min(count);
    let mut made = number(pieces, total, source);
    let mut left = count;
    for run in 1..=total {
        let length = if run == total { left } else { source.below(1 + left.min(9)) };
        let key = zigzag_encode(source.any_width() as i64);
        made = number(made, key, source);
        made = number(made, length, source);
        left -= length;
    }
    made
}

/// Entries that rise, fall and repeat, with codes as wide as they need to be or wider.
fn dictionary(pieces: Pieces, count: u64, source: &mut Source) -> Pieces {
    let entries = 1 + source.below(count + 3);
    let mut made = number(pieces, entries, source);
    for _ in 0..entries {
        made = any_number(made, source);
    }
    let needed = required_width(entries - 1);
    let width = needed + source.below(65 - u64::from(needed)) as u32 * source.below(2) as u32;
    let codes: Vec<u64> = (0..count).map(|_| source.below(entries)).collect();
    let mut packed = Vec::new();
    pack(&codes, width, &mut packed).expect("a width of at most 64");
    made.byte(width as u8).bytes(&packed)
}

/// Blocks of another size, each as wide as it happens to be.
fn delta(pieces: Pieces, count: u64, source: &mut Source) -> Pieces {
    if count == 0 {
        return pieces;
    }
    let size = [1 + source.below(300), 128, 1 << 20][source.below(3) as usize];
    let first = any_number(pieces, source);
    let mut made = number(first, size, source);
    let mut left = count - 1;
    while left > 0 {
        let block = left.min(size);
        let least = any_number(made, source);
        made = packed(least, block, source);
        left -= block;
    }
    made
}
