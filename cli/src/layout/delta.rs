//! The body of a DeltaBinaryPacked chunk.

use warpboulder::bitpack;

use super::abridged;
use super::packed::{packed, width};
use super::walk::{padding_note, Read, Step, Walk};
use crate::wording::{counted, grouped};

const MAX_BLOCK_SIZE: u64 = 1 << 20;

/// What a block holds, beside its packed offsets.
struct Block {
    least: Read<i64>,
    width: u32,
    deltas: usize,
    packed_bytes: usize,
}

pub fn delta(walk: &mut Walk, count: usize) -> Step<()> {
    if count == 0 {
        return Ok(());
    }
    walk.varint("first key")?;
    let block_size = match walk.uvarint("block size")? {
        size @ 1..=MAX_BLOCK_SIZE => size as usize,
        _ => return walk.refuse_last(&format!("which is not from 1 to {}", grouped(MAX_BLOCK_SIZE))),
    };
    let mut left = count - 1;
    let blocks = left.div_ceil(block_size) as u64;
    let read = |walk: &mut Walk| {
        let block = read_block(walk, left.min(block_size))?;
        left -= block.deltas;
        Some(block)
    };
    let whole = abridged::note_all(walk, blocks, ("block", "blocks"), read, in_words);
    if whole < blocks {
        walk.varint("least delta")?;
        let width = width(walk)?;
        packed(walk, "packed offsets", left.min(block_size), width, |offset| offset.to_string())?;
    }
    Ok(())
}

/// A block, if it is all there.
fn read_block(walk: &mut Walk, deltas: usize) -> Option<Block> {
    let least = walk.read_varint().ok()?;
    let width = u32::from(*walk.rest().first()?);
    let packed_bytes = bitpack::try_packed_len(deltas, width).ok()?;
    walk.pass(1 + packed_bytes).then_some(Block { least, width, deltas, packed_bytes })
}

fn in_words(block: &Block) -> String {
    let deltas = counted(block.deltas, "delta", "deltas");
    let packed = counted(block.packed_bytes, "packed byte", "packed bytes");
    let note = padding_note(block.least.is_padded);
    format!("{deltas}: least {}{note}, width {}, {packed}", block.least.value, block.width)
}
