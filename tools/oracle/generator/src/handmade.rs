//! Chunks made so that each question of document 01 is met, where it is answered yes and where it is answered no.

use crate::pieces::{varint_of_length, Pieces};

const LIMIT: u64 = 1 << 24;
const LONGEST_BLOCK: u64 = 1 << 20;

pub fn all() -> Vec<Vec<u8>> {
    [
        versions(),
        varints(),
        counts(),
        plain_bodies(),
        widths(),
        frames(),
        packed_bodies(),
        runs(),
        dictionaries(),
        codes(),
        block_sizes(),
        delta_blocks(),
        bytes_after_the_body(),
        longest_columns(),
    ]
    .concat()
}

/// Version bytes (5), and what comes before that question: ids, names, two bytes.
fn versions() -> Vec<Vec<u8>> {
    let mut all = Vec::new();
    for id in 0..=10 {
        for version in [0, 1, 2, 0x81, 0xff] {
            all.push(vec![id, version]);
            all.push(vec![id, version, 0, 0]);
        }
    }
    all
}

/// A varint at a place where the layouts have one: what stands before it, a number that is read there, and what
/// follows to make a good chunk.
struct Place {
    before: Pieces,
    number: u64,
    after: Vec<u8>,
}

fn places() -> Vec<Place> {
    let place = |before, number, after: &[u8]| Place { before, number, after: after.to_vec() };
    let runs = || Pieces::header(5, 3).unsigned(2);
    let dictionary = || Pieces::header(6, 2);
    let delta = || Pieces::header(7, 3);
    let second_block = || delta().signed(5).unsigned(1).signed(-1).byte(0);
    vec![
        // the count, in each encoding
        place(Pieces::of(1), 1, &[1, 2, 3, 4, 5, 6, 7, 8]),
        place(Pieces::of(2), 1, &[9]),
        place(Pieces::of(3), 1, &[3, 5]),
        place(Pieces::of(4), 1, &[0, 0, 0, 0, 0, 0, 0, 0, 4, 7]),
        place(Pieces::of(5), 2, &[1, 9, 2]),
        place(Pieces::of(6), 2, &[1, 9, 0]),
        place(Pieces::of(7), 1, &[9, 1]),
        // a value
        place(Pieces::header(2, 2), 3, &[4]),
        place(Pieces::header(2, 2).signed(7), 3, &[]),
        // the number of runs, their values and lengths
        place(Pieces::header(5, 3), 1, &[8, 3]),
        place(runs(), 8, &[1, 6, 2]),
        place(runs().signed(4), 1, &[6, 2]),
        place(runs().signed(4).unsigned(1), 6, &[2]),
        place(runs().signed(4).unsigned(1).signed(3), 2, &[]),
        // the number of entries, the first one, a gap
        place(dictionary(), 2, &[8, 1, 1, 2]),
        place(dictionary().unsigned(2), 8, &[1, 1, 2]),
        place(dictionary().unsigned(2).signed(4), 1, &[1, 2]),
        // the first value, the block size, the least delta of each block
        place(delta(), 8, &[2, 2, 1, 2]),
        place(delta().signed(4), 2, &[2, 1, 2]),
        place(delta().signed(4).unsigned(2), 2, &[1, 2]),
        place(second_block(), 2, &[0]),
    ]
}

/// Every place with a varint that is cut (6), too long (7) or overlong.
fn varints() -> Vec<Vec<u8>> {
    let mut all = Vec::new();
    for Place { before, number, after } in places() {
        for length in [1, 2, 3, 9, 10] {
            let whole = before.clone().bytes(&varint_of_length(number, length));
            all.push(whole.bytes(&after).done());
        }
        // the tenth byte's other bits do not count
        let mut tenth = varint_of_length(number, 10);
        tenth[9] = 0x7e;
        all.push(before.clone().bytes(&tenth).bytes(&after).done());
        // cut: nothing there, ten bytes that go on
        all.push(before.clone().done());
        all.push(before.clone().bytes(&[0x80; 10]).done());
        // the eleventh byte
        all.push(before.clone().bytes(&varint_of_length(number, 11)).bytes(&after).done());
        all.push(before.clone().bytes(&[0xff; 11]).bytes(&after).done());
    }
    all
}

/// Counts about the limit (8) and far above it. Those up to the limit have no body and are refused for that.
fn counts() -> Vec<Vec<u8>> {
    let mut all = Vec::new();
    for id in 1..=7 {
        for count in [LIMIT - 1, LIMIT, LIMIT + 1, LIMIT + 2, 1 << 32, 1 << 63, u64::MAX] {
            all.push(Pieces::header(id, count).done());
            all.push(Pieces::header(id, count).byte(0x41).done());
        }
        all.push(Pieces::of(id).bytes(&varint_of_length(LIMIT + 1, 10)).done());
    }
    all
}

/// Plain bodies that are short (9), whole, and longer.
fn plain_bodies() -> Vec<Vec<u8>> {
    let mut all = Vec::new();
    for count in 0..4u64 {
        let needed = 8 * count as usize;
        for length in [needed, needed + 1, needed.saturating_sub(1)] {
            all.push(Pieces::header(1, count).bytes(&vec![0xa5; length]).done());
        }
    }
    all.push(Pieces::header(1, 128).bytes(&[0; 7]).done());
    all
}

/// What stands before a width byte, in each encoding that has one. Two values are packed there; in the last case
/// the block is the second one.
fn before_widths() -> Vec<Pieces> {
    let delta = || Pieces::header(7, 5).signed(-2).unsigned(2);
    vec![
        Pieces::header(3, 2),
        Pieces::header(4, 2).word(-7),
        Pieces::header(6, 2).unsigned(2).signed(10).unsigned(5),
        delta().signed(3),
        delta().signed(3).byte(1).byte(2).signed(-3),
    ]
}

/// Width bytes that are missing (10), possible and impossible (12), with a body that is there or missing (13).
fn widths() -> Vec<Vec<u8>> {
    let mut all = Vec::new();
    for before in before_widths() {
        all.push(before.clone().done());
        for width in [0, 1, 2, 7, 8, 9, 32, 63, 64, 65, 66, 128, 255] {
            let begun = before.clone().byte(width);
            all.push(begun.clone().done());
            all.push(begun.clone().bytes(&[0; 16]).done());
            all.push(begun.bytes(&[0x96; 40]).done());
        }
    }
    // a count of 0 packs nothing, yet has a width
    for before in [Pieces::header(3, 0), Pieces::header(4, 0).word(1), Pieces::header(6, 0).unsigned(0)] {
        for width in [0, 1, 64, 65, 255] {
            all.push(before.clone().byte(width).done());
        }
    }
    all
}

/// Frames of which only a part is there (11).
fn frames() -> Vec<Vec<u8>> {
    let mut all = Vec::new();
    for count in [0, 1, 200] {
        for length in 0..=9 {
            all.push(Pieces::header(4, count).bytes(&[0x11; 9][..length]).done());
        }
    }
    all
}

/// Packed bodies short of one byte (13), whole, with their spare bits set and with a byte after them. The offset
/// of 13 counts from the body's start, so the places of the body differ.
fn packed_bodies() -> Vec<Vec<u8>> {
    let mut all = Vec::new();
    for (width, needed) in [(1, 1), (3, 1), (5, 2), (9, 3), (33, 9), (64, 16)] {
        for before in before_widths() {
            for length in [needed - 1, needed, needed + 1] {
                all.push(before.clone().byte(width).bytes(&vec![0xff; length]).done());
            }
        }
    }
    all
}

/// Numbers of runs (14), their lengths (15) and the sum of these (16); runs of length zero are read.
fn runs() -> Vec<Vec<u8>> {
    let make = |count: u64, total: u64, runs: &[(i64, u64)]| {
        let header = Pieces::header(5, count).unsigned(total);
        runs.iter().fold(header, |made, &(key, length)| made.signed(key).unsigned(length)).done()
    };
    let mut all = Vec::new();
    for (count, total) in [(0, 0), (0, 1), (1, 2), (3, 4), (3, 3), (3, 0), (5, u64::MAX), (5, 1 << 32)] {
        all.push(make(count, total, &[]));
    }
    for lengths in [[1, 2, 0], [0, 0, 3], [0, 3, 0], [1, 1, 1], [1, 1, 0], [0, 0, 0], [2, 2, 0], [3, 1, 0]] {
        let [a, b, c] = lengths;
        all.push(make(3, 3, &[(4, a), (4, b), (-9, c)]));
        all.push(make(3, 2, &[(i64::MIN, a), (i64::MAX, b)]));
        all.push(make(3, 1, &[(6, a)]));
    }
    for length in [3, 4, 5, 1 << 24, 1 << 63, u64::MAX, u64::MAX - 1] {
        all.push(make(4, 1, &[(7, length)]));
        all.push(make(4, 2, &[(7, 1), (8, length)]));
    }
    all.push(make(0, 0, &[(1, 1)]));
    all
}

/// Numbers of entries (17): as many as bytes are left, one more, far more; entries that repeat, fall or pass the
/// greatest key.
fn dictionaries() -> Vec<Vec<u8>> {
    let mut all = Vec::new();
    for entries in [0, 1, 2, 3, 4, 5, 6, 127, 1 << 24, 1 << 63, u64::MAX] {
        for left in 0..=5 {
            all.push(Pieces::header(6, 1).unsigned(entries).bytes(&[1; 5][..left]).done());
        }
        all.push(Pieces::header(6, 0).unsigned(entries).bytes(&[0; 3]).done());
    }
    for gap in [0, 1, 1 << 63, u64::MAX, u64::MAX - 6] {
        let entries = Pieces::header(6, 4).unsigned(3).signed(i64::MAX).unsigned(gap).unsigned(gap);
        all.push(entries.byte(2).byte(0b0010_0100).done());
    }
    all
}

/// Codes up to the number of entries and above it (18), at the width of the codes and wider, in the first and in
/// the last place; no entries at all; a bad code in a body that is too short, which is 13.
fn codes() -> Vec<Vec<u8>> {
    let mut all = Vec::new();
    for entries in 1..=4u64 {
        let first = Pieces::header(6, 3).unsigned(entries).signed(-40);
        let start = (1..entries).fold(first, |made, gap| made.unsigned(gap));
        for code in 0..=4 {
            all.push(start.clone().byte(8).bytes(&[0, 0, code]).done());
            all.push(start.clone().byte(8).bytes(&[code, 0, 0]).done());
            all.push(start.clone().byte(4).bytes(&[code << 4, 0]).done());
            all.push(start.clone().byte(8).bytes(&[code, 0]).done());
        }
        all.push(start.byte(64).word(i64::MIN).word(0).word(-1).done());
    }
    for count in [0, 1, 2, 1_000, LIMIT] {
        for width in [0, 1, 64] {
            all.push(Pieces::header(6, count).unsigned(0).byte(width).done());
            all.push(Pieces::header(6, count).unsigned(0).byte(width).bytes(&[0; 16]).done());
        }
    }
    all
}

/// Block sizes (19), asked even where no block follows.
fn block_sizes() -> Vec<Vec<u8>> {
    let mut all = Vec::new();
    let sizes = [0, 1, 2, 3, 127, 128, 129, LONGEST_BLOCK - 1, LONGEST_BLOCK, LONGEST_BLOCK + 1, 1 << 63, u64::MAX];
    for size in sizes {
        for count in 0..=4 {
            let begun = Pieces::header(7, count).signed(-1).unsigned(size);
            all.push(begun.clone().done());
            all.push(begun.signed(10).byte(2).byte(0b11_10_01_00).done());
        }
    }
    all
}

/// Several blocks of several sizes, whole and cut within the last one; sums that wrap.
fn delta_blocks() -> Vec<Vec<u8>> {
    let mut all = Vec::new();
    for (count, size) in [(4u64, 1u64), (5, 2), (6, 2), (8, 3), (9, 5)] {
        let mut made = Pieces::header(7, count).signed(i64::MAX).unsigned(size);
        let mut left = count - 1;
        while left > 0 {
            let block = left.min(size);
            let length = (block * 11).div_ceil(8) as usize;
            made = made.signed(1 - left as i64).byte(11).bytes(&vec![0x6d; length]);
            left -= block;
        }
        let whole = made.done();
        all.extend((whole.len() - 5..=whole.len()).map(|length| whole[..length].to_vec()));
    }
    let wrapping = Pieces::header(7, 3).signed(i64::MIN).unsigned(128).signed(i64::MIN).byte(64);
    all.push(wrapping.word(-1).word(i64::MAX).done());
    all
}

/// Bytes after the body are ignored, whatever they are.
fn bytes_after_the_body() -> Vec<Vec<u8>> {
    let good = [
        Pieces::header(1, 1).word(-5),
        Pieces::header(2, 2).signed(1).signed(-300),
        Pieces::header(3, 2).byte(4).byte(0x21),
        Pieces::header(4, 3).word(1_000).byte(2).byte(0x24),
        Pieces::header(5, 9).unsigned(1).signed(3).unsigned(9),
        Pieces::header(6, 2).unsigned(1).signed(77).byte(0),
        Pieces::header(7, 2).signed(6).unsigned(128).signed(2).byte(0),
        Pieces::header(7, 0),
    ];
    let after: [&[u8]; 4] = [&[], &[0], &[0xff; 11], &[3, 1, 1, 0]];
    good.iter().flat_map(|good| after.map(|after| good.clone().bytes(after).done())).collect()
}

/// Few bytes for many values, up to the limit.
fn longest_columns() -> Vec<Vec<u8>> {
    let mut all = Vec::new();
    for count in [65, 4_096, 4_097, LIMIT] {
        all.push(Pieces::header(3, count).byte(0).done());
        all.push(Pieces::header(4, count).word(-3).byte(0).done());
        all.push(Pieces::header(5, count).unsigned(1).signed(8).unsigned(count).done());
        all.push(Pieces::header(6, count).unsigned(1).signed(-8).byte(0).done());
        let blocks = (count - 1).div_ceil(LONGEST_BLOCK) as usize;
        let delta = Pieces::header(7, count).signed(100).unsigned(LONGEST_BLOCK);
        all.push(delta.bytes(&[6, 0].repeat(blocks)).done());
    }
    all
}
