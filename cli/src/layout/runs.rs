//! The body of a RunLength chunk.

use super::abridged;
use super::walk::{padding_note, Read, Step, Walk};
use crate::wording::grouped;

/// A run's key and its length.
type Run = (Read<i64>, Read<u64>);

pub fn runs(walk: &mut Walk, count: usize) -> Step<()> {
    let total = walk.uvarint("runs")?;
    if total > count as u64 {
        return walk.refuse_last(&format!("above the count of {}", grouped(count)));
    }
    let mut left = count as u64;
    let whole = abridged::note_all(walk, total, ("run", "runs"), |walk| read_run(walk, &mut left), in_words);
    if whole < total {
        walk.varint("key of a run")?;
        walk.uvarint("its length")?;
        return walk.refuse_last(&format!("where {} are left of the count", grouped(left)));
    }
    Ok(())
}

/// A run, if it is all there and not longer than what is left of the count.
fn read_run(walk: &mut Walk, left: &mut u64) -> Option<Run> {
    let key = walk.read_varint().ok()?;
    let length = walk.read_uvarint().ok()?;
    *left = left.checked_sub(length.value)?;
    Some((key, length))
}

fn in_words((key, length): &Run) -> String {
    let times = if length.value == 1 { "time" } else { "times" };
    let note = padding_note(key.is_padded || length.is_padded);
    format!("{}, {} {times}{note}", key.value, grouped(length.value))
}
