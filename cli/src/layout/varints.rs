//! Rows of varints, of which one line tells: the keys of a Varint body, the gaps of a dictionary.

use warpboulder::varint::zigzag_decode;

use super::packed::{row_of_values, SHOWN_VALUES};
use super::walk::{Step, Walk};
use crate::wording::grouped;

/// What was read of a row of varints.
struct Passed {
    offset: usize,
    count: usize,
    padded: usize,
}

impl Passed {
    /// Reads so many varints, or as many as are whole, and lets `see` have each.
    fn read(walk: &mut Walk, count: usize, mut see: impl FnMut(u64)) -> Passed {
        let mut passed = Passed { offset: walk.at(), count: 0, padded: 0 };
        while passed.count < count {
            let Ok(read) = walk.read_uvarint() else {
                break;
            };
            see(read.value);
            passed.count += 1;
            passed.padded += usize::from(read.is_padded);
        }
        passed
    }

    fn note(&self, walk: &mut Walk, what: &str, mut value: String) {
        if self.padded > 0 {
            value += &format!(" ({} padded: strict reading refuses it)", grouped(self.padded));
        }
        if self.count > 0 {
            walk.note(self.offset, walk.at() - self.offset, what, value);
        }
    }
}

pub fn keys(walk: &mut Walk, count: usize) -> Step<()> {
    let mut shown = Vec::new();
    let passed = Passed::read(walk, count, |zigzag| {
        if shown.len() < SHOWN_VALUES {
            shown.push(zigzag_decode(zigzag).to_string());
        }
    });
    passed.note(walk, "keys", row_of_values(passed.count, &shown));
    if passed.count < count {
        walk.varint(&format!("key {}", grouped(passed.count + 1)))?;
    }
    Ok(())
}

pub fn gaps(walk: &mut Walk, count: usize) -> Step<()> {
    let (mut least, mut greatest) = (u64::MAX, 0);
    let passed = Passed::read(walk, count, |gap| (least, greatest) = (least.min(gap), greatest.max(gap)));
    passed.note(walk, "gaps", format!("{}: {} to {}", grouped(passed.count), grouped(least), grouped(greatest)));
    if passed.count < count {
        walk.uvarint(&format!("gap {}", grouped(passed.count + 1)))?;
    }
    Ok(())
}
