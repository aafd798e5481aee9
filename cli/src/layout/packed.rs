//! Bodies of values that all have one width: Plain, BitPacked, FrameOfReference.

use warpboulder::{bitpack, varint};

use super::walk::{Step, Walk};
use crate::wording::grouped;

const KEY_BYTES: usize = 8;
const MAX_WIDTH: u32 = 64;

/// So many values of a row of many are shown.
pub const SHOWN_VALUES: usize = 4;

pub fn plain(walk: &mut Walk, count: usize) -> Step<()> {
    let needed = count * KEY_BYTES;
    let Some(body) = walk.rest().get(..needed) else {
        return walk.stop_cut("keys", needed);
    };
    let (keys, _) = body.as_chunks::<KEY_BYTES>();
    let shown: Vec<String> = keys.iter().take(SHOWN_VALUES).map(|key| i64::from_le_bytes(*key).to_string()).collect();
    walk.part(needed, "keys", row_of_values(count, &shown));
    Ok(())
}

pub fn bit_packed(walk: &mut Walk, count: usize) -> Step<()> {
    let width = width(walk)?;
    packed(walk, "keys, as packed ZigZags", count, width, |zigzag| varint::zigzag_decode(zigzag).to_string())
}

pub fn frame_of_reference(walk: &mut Walk, count: usize) -> Step<()> {
    // The library asks for the least key and the width at once.
    let rest = walk.rest();
    let (Some(&least), Some(_)) = (rest.first_chunk::<KEY_BYTES>(), rest.get(KEY_BYTES)) else {
        return walk.stop_cut("least key, width", KEY_BYTES + 1);
    };
    let least = i64::from_le_bytes(least);
    walk.part(KEY_BYTES, "least key", least.to_string());
    let width = width(walk)?;
    packed(walk, "keys, as packed differences", count, width, |difference| {
        least.wrapping_add_unsigned(difference).to_string()
    })
}

/// The width byte of what is packed behind it.
pub fn width(walk: &mut Walk) -> Step<u32> {
    let width = u32::from(walk.byte("width")?);
    if width > MAX_WIDTH {
        return walk.refuse_last(&format!("above the limit of {MAX_WIDTH}"));
    }
    walk.add_to_last(if width == 1 { "bit" } else { "bits" });
    Ok(width)
}

/// Values packed at a width. The first few are shown, each as `show` says.
pub fn packed(walk: &mut Walk, what: &str, count: usize, width: u32, show: impl Fn(u64) -> String) -> Step<()> {
    let needed = match bitpack::try_packed_len(count, width) {
        Ok(needed) if needed <= walk.rest().len() => needed,
        Ok(needed) => return walk.stop_cut(what, needed),
        Err(error) => return walk.refuse_last(&format!("({error})")),
    };
    let shown = bitpack::unpack(walk.rest(), width, count.min(SHOWN_VALUES)).unwrap_or_default();
    let shown: Vec<String> = shown.into_iter().map(show).collect();
    walk.part(needed, what, row_of_values(count, &shown));
    Ok(())
}

/// How many values there are, and the first few.
pub fn row_of_values(count: usize, shown: &[String]) -> String {
    let more = if count > shown.len() { ", ..." } else { "" };
    match shown {
        [] => grouped(count),
        _ => format!("{}: {}{more}", grouped(count), shown.join(", ")),
    }
}
