//! Document 01's strict reading, which the original does not have: "does every varint read end on a nonzero byte, or have one byte?
//! 25, its start. Does the chunk end with its body? 26, first byte over." Found by a walk along a chunk that the original accepts.

use crate::answer::Answer;
use basalt_encoding::{bitpack::packed_len, varint::read_uvarint};

/// What strict reading refuses a chunk with that the original accepts; `None` if it accepts it too.
pub fn refusal(chunk: &[u8]) -> Option<Answer> {
    let mut walk = Walk { chunk, at: 2, padded: None };
    let count = walk.uvarint() as usize;
    walk.body(chunk[0], count);
    match walk.padded {
        Some(start) => Some(Answer::added(25, start)),
        None if walk.at < chunk.len() => Some(Answer::added(26, walk.at)),
        None => None,
    }
}

/// Whether a varint ends on a nonzero byte, or has one byte.
pub fn is_unpadded(varint: &[u8]) -> bool {
    varint.len() == 1 || varint.last() != Some(&0)
}

struct Walk<'a> {
    chunk: &'a [u8],
    at: usize,
    /// Where the first padded varint starts.
    padded: Option<usize>,
}

impl Walk<'_> {
    fn body(&mut self, id: u8, count: usize) {
        match id {
            1 => self.at += 8 * count,
            2 => self.uvarints(count),
            3 => self.packed(count),
            4 => {
                self.at += 8;
                self.packed(count);
            }
            5 => {
                let runs = self.uvarint() as usize;
                self.uvarints(2 * runs);
            }
            6 => {
                let entries = self.uvarint() as usize;
                self.uvarints(entries);
                self.packed(count);
            }
            _ => self.delta(count),
        }
    }

    fn delta(&mut self, count: usize) {
        if count == 0 {
            return;
        }
        self.uvarint();
        let size = self.uvarint() as usize;
        let mut left = count - 1;
        while left > 0 {
            self.uvarint();
            self.packed(left.min(size));
            left -= left.min(size);
        }
    }

    fn uvarint(&mut self) -> u64 {
        let start = self.at;
        let value = read_uvarint(self.chunk, &mut self.at).expect("a varint of a chunk that is accepted");
        if !is_unpadded(&self.chunk[start..self.at]) {
            self.padded.get_or_insert(start);
        }
        value
    }

    fn uvarints(&mut self, count: usize) {
        for _ in 0..count {
            self.uvarint();
        }
    }

    /// A width byte and so many values of that width.
    fn packed(&mut self, count: usize) {
        self.at += 1 + packed_len(count, self.chunk[self.at].into());
    }
}
