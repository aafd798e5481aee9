//! The body of a Dictionary chunk.

use super::packed::{packed, width};
use super::varints::gaps;
use super::walk::{Step, Walk};
use crate::wording::counted;

pub fn dictionary(walk: &mut Walk, count: usize) -> Step<()> {
    let entries = walk.uvarint("entries")?;
    let left = walk.rest().len();
    let entries = match usize::try_from(entries) {
        Ok(entries) if entries <= left => entries,
        _ => return walk.refuse_last(&format!("where {} are left", counted(left, "byte", "bytes"))),
    };
    if entries > 0 {
        walk.varint("first entry")?;
        gaps(walk, entries - 1)?;
    }
    let width = width(walk)?;
    packed(walk, "packed codes", count, width, |code| code.to_string())
}
