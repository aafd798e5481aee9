//! The calls of the proved library, as include/warpboulder.h declares them. All `unsafe` of the crate stands here,
//! behind functions that take slices and vectors.
//!
//! Why the calls are sound: the library reads no more elements than the count beside a pointer says, writes none behind
//! that count, keeps no pointer and has no state. Buffers cannot overlap, because each comes from a borrow of its own.
//! What a buffer held before makes no difference to what is stored at its front, so that a buffer lent to be written
//! need not be initialised. All this is proved of the library; a count that comes back is checked against the room that
//! was lent all the same.

use std::mem::size_of;

use crate::encoding::Encoding;
use crate::error::{Error, Refusal, Result};
use crate::level::CompressionLevel;

/// How many encodings there are: WB_ENCODINGS.
pub(crate) const ENCODINGS: usize = 7;

/// wb_stats
#[repr(C)]
#[derive(Debug, Default)]
pub(crate) struct Stats {
    pub count: u64,
    pub first: i64,
    pub min: i64,
    pub max: i64,
    pub run_count: u64,
    pub sortedness: u64,
    pub cardinality: u64,
    pub cardinality_is_exact: u64,
    pub value_span: u64,
    pub max_zigzag: u64,
    pub varint_body_bytes: u64,
    pub run_length_body_bytes: u64,
    pub delta_min: i64,
    pub delta_max: i64,
    pub delta_span: u64,
}

/// wb_estimates
#[repr(C)]
#[derive(Debug, Default)]
pub(crate) struct Estimates {
    pub lengths: [u64; ENCODINGS],
    pub available: [u64; ENCODINGS],
}

/// wb_plan
#[repr(C)]
#[derive(Debug, Default)]
pub(crate) struct Plan {
    pub encoding: u64,
    pub estimated_bytes: u64,
    pub plain_bytes: u64,
    pub reason: u64,
    pub run_density: f64,
    pub estimated_ratio: f64,
    pub estimates: Estimates,
}

const _: () = assert!(size_of::<usize>() == 8, "the library's size_t has 64 bits");
const _: () = assert!(size_of::<Stats>() == 15 * 8, "wb_stats has 15 words");
const _: () = assert!(size_of::<Estimates>() == 14 * 8, "wb_estimates has 14 words");
const _: () = assert!(size_of::<Plan>() == 20 * 8, "wb_plan has 20 words");

extern "C" {
    fn wb_zigzag_encode(value: i64) -> u64;
    fn wb_zigzag_decode(value: u64) -> i64;
    fn wb_required_width(max: u64) -> u32;
    fn wb_uvarint_len(value: u64) -> usize;
    fn wb_varint_len(value: i64) -> usize;
    fn wb_minimum_gain(level: u32) -> f64;
    fn wb_read_uvarint(
        bytes: *const u8,
        size: usize,
        at: usize,
        value: *mut u64,
        unpadded: *mut bool,
        next_or_offset: *mut usize,
    ) -> u32;
    fn wb_read_varint(
        bytes: *const u8,
        size: usize,
        at: usize,
        value: *mut i64,
        unpadded: *mut bool,
        next_or_offset: *mut usize,
    ) -> u32;
    fn wb_write_uvarint(value: u64, out: *mut u8, size: usize, count_or_offset: *mut usize) -> u32;
    fn wb_write_varint(value: i64, out: *mut u8, size: usize, count_or_offset: *mut usize) -> u32;
    fn wb_packed_len(count: usize, width: u32, count_or_offset: *mut usize) -> u32;
    fn wb_pack(
        values: *const u64,
        count: usize,
        width: u32,
        out: *mut u8,
        size: usize,
        count_or_offset: *mut usize,
    ) -> u32;
    fn wb_unpack(
        bytes: *const u8,
        size: usize,
        width: u32,
        count: usize,
        out: *mut u64,
        room: usize,
        count_or_offset: *mut usize,
    ) -> u32;
    fn wb_encode_integers(
        column: *const i64,
        count: usize,
        encoding: u32,
        scratch: *mut i64,
        places: usize,
        out: *mut u8,
        size: usize,
        count_or_offset: *mut usize,
    ) -> u32;
    fn wb_decode_integers(
        chunk: *const u8,
        size: usize,
        strict: bool,
        column: *mut i64,
        room: usize,
        count_or_offset: *mut usize,
    ) -> u32;
    fn wb_decode_named(
        chunk: *const u8,
        size: usize,
        encoding: u32,
        strict: bool,
        column: *mut i64,
        room: usize,
        count_or_offset: *mut usize,
    ) -> u32;
    fn wb_estimate_sizes(
        column: *const i64,
        count: usize,
        scratch: *mut i64,
        places: usize,
        stats: *mut Stats,
        estimates: *mut Estimates,
        count_or_offset: *mut usize,
    ) -> u32;
    fn wb_analyze(
        column: *const i64,
        count: usize,
        level: u32,
        scratch: *mut i64,
        places: usize,
        plan: *mut Plan,
        count_or_offset: *mut usize,
    ) -> u32;
}

/// The number that a call returned, with the count or offset that it stored, as a result.
fn settle(number: u32, count_or_offset: usize) -> Result<usize> {
    if number == 0 {
        return Ok(count_or_offset);
    }
    match Refusal::from_number(number) {
        Some(refusal) => Err(Error::new(refusal, count_or_offset)),
        None => panic!("the library answered {number}, which is the number of no refusal"),
    }
}

/// Lends the spare capacity of `out` to a call that stores elements at the front of it, and makes them part of `out`. A
/// refusal leaves `out` as it was.
fn append<T>(out: &mut Vec<T>, call: impl FnOnce(*mut T, usize, &mut usize) -> u32) -> Result<()> {
    let spare = out.spare_capacity_mut();
    let room = spare.len();
    let mut count_or_offset = 0;
    let number = call(spare.as_mut_ptr().cast(), room, &mut count_or_offset);
    let stored = settle(number, count_or_offset)?;
    assert!(stored <= room, "the library stored {stored} elements where {room} were lent");
    // SAFETY: the library has accepted, and so has stored this many elements at the front of the spare capacity.
    unsafe { out.set_len(out.len() + stored) };
    Ok(())
}

pub(crate) fn zigzag_encode(value: i64) -> u64 {
    // SAFETY: numbers alone are passed.
    unsafe { wb_zigzag_encode(value) }
}

pub(crate) fn zigzag_decode(value: u64) -> i64 {
    // SAFETY: numbers alone are passed.
    unsafe { wb_zigzag_decode(value) }
}

pub(crate) fn required_width(max: u64) -> u32 {
    // SAFETY: numbers alone are passed.
    unsafe { wb_required_width(max) }
}

pub(crate) fn uvarint_len(value: u64) -> usize {
    // SAFETY: numbers alone are passed.
    unsafe { wb_uvarint_len(value) }
}

pub(crate) fn varint_len(value: i64) -> usize {
    // SAFETY: numbers alone are passed.
    unsafe { wb_varint_len(value) }
}

pub(crate) fn minimum_gain(level: CompressionLevel) -> f64 {
    // SAFETY: numbers alone are passed.
    unsafe { wb_minimum_gain(u32::from(level.get())) }
}

/// The varint at `at`, and the place after it.
pub(crate) fn read_uvarint(bytes: &[u8], at: usize) -> Result<(u64, usize)> {
    let (mut value, mut unpadded, mut next) = (0, false, 0);
    // SAFETY: `bytes` is lent with its length, and the three results are alive and apart.
    let number = unsafe { wb_read_uvarint(bytes.as_ptr(), bytes.len(), at, &mut value, &mut unpadded, &mut next) };
    settle(number, next).map(|next| (value, next))
}

/// The signed varint at `at`, and the place after it.
pub(crate) fn read_varint(bytes: &[u8], at: usize) -> Result<(i64, usize)> {
    let (mut value, mut unpadded, mut next) = (0, false, 0);
    // SAFETY: `bytes` is lent with its length, and the three results are alive and apart.
    let number = unsafe { wb_read_varint(bytes.as_ptr(), bytes.len(), at, &mut value, &mut unpadded, &mut next) };
    settle(number, next).map(|next| (value, next))
}

/// Appends a varint within the capacity of `out`.
pub(crate) fn write_uvarint(value: u64, out: &mut Vec<u8>) -> Result<()> {
    // SAFETY: `append` lends a buffer with its length, and the place of the answer.
    append(out, |out, size, count| unsafe { wb_write_uvarint(value, out, size, count) })
}

/// Appends a signed varint within the capacity of `out`.
pub(crate) fn write_varint(value: i64, out: &mut Vec<u8>) -> Result<()> {
    // SAFETY: `append` lends a buffer with its length, and the place of the answer.
    append(out, |out, size, count| unsafe { wb_write_varint(value, out, size, count) })
}

pub(crate) fn packed_len(count: usize, width: u32) -> Result<usize> {
    let mut length = 0;
    // SAFETY: numbers and the place of the answer are passed.
    let number = unsafe { wb_packed_len(count, width, &mut length) };
    settle(number, length)
}

/// Appends packed values within the capacity of `out`.
pub(crate) fn pack(values: &[u64], width: u32, out: &mut Vec<u8>) -> Result<()> {
    // SAFETY: `values` is lent with its length; `append` lends a buffer with its length, and the place of the answer.
    append(out, |out, size, count| unsafe { wb_pack(values.as_ptr(), values.len(), width, out, size, count) })
}

/// Appends unpacked values within the capacity of `out`.
pub(crate) fn unpack(bytes: &[u8], width: u32, count: usize, out: &mut Vec<u64>) -> Result<()> {
    // SAFETY: `bytes` is lent with its length; `append` lends a buffer with its length, and the place of the answer.
    append(out, |out, room, stored| unsafe { wb_unpack(bytes.as_ptr(), bytes.len(), width, count, out, room, stored) })
}

/// Appends a chunk within the capacity of `out`. The scratch is the spare capacity of a vector that stays empty.
pub(crate) fn encode_integers(
    column: &[i64],
    encoding: Encoding,
    scratch: &mut Vec<i64>,
    out: &mut Vec<u8>,
) -> Result<()> {
    let id = u32::from(encoding.as_u8());
    let scratch = scratch.spare_capacity_mut();
    let (places, scratch) = (scratch.len(), scratch.as_mut_ptr().cast());
    // SAFETY: column and scratch are lent with their lengths; `append` lends a buffer with its length, and the place of
    // the answer.
    append(out, |out, size, count| unsafe {
        wb_encode_integers(column.as_ptr(), column.len(), id, scratch, places, out, size, count)
    })
}

/// Appends the keys of a chunk within the capacity of `column`.
pub(crate) fn decode_integers(chunk: &[u8], strict: bool, column: &mut Vec<i64>) -> Result<()> {
    // SAFETY: `chunk` is lent with its length; `append` lends a buffer with its length, and the place of the answer.
    append(column, |column, room, count| unsafe {
        wb_decode_integers(chunk.as_ptr(), chunk.len(), strict, column, room, count)
    })
}

/// Appends the keys of a chunk of this encoding within the capacity of `column`.
pub(crate) fn decode_named(chunk: &[u8], encoding: Encoding, strict: bool, column: &mut Vec<i64>) -> Result<()> {
    let id = u32::from(encoding.as_u8());
    // SAFETY: `chunk` is lent with its length; `append` lends a buffer with its length, and the place of the answer.
    append(column, |column, room, count| unsafe {
        wb_decode_named(chunk.as_ptr(), chunk.len(), id, strict, column, room, count)
    })
}

/// Statistics and estimates of a column. The distinct keys that were collected are appended within the capacity of
/// `scratch`.
pub(crate) fn estimate_sizes(column: &[i64], scratch: &mut Vec<i64>) -> Result<(Stats, Estimates)> {
    let (mut stats, mut estimates) = (Stats::default(), Estimates::default());
    // SAFETY: `column` is lent with its length, both structs are as the header says; `append` lends a buffer with its
    // length, and the place of the answer.
    append(scratch, |scratch, places, count| unsafe {
        wb_estimate_sizes(column.as_ptr(), column.len(), scratch, places, &mut stats, &mut estimates, count)
    })?;
    Ok((stats, estimates))
}

/// The plan of a column. The distinct keys that were collected are appended within the capacity of `scratch`.
pub(crate) fn analyze(column: &[i64], level: CompressionLevel, scratch: &mut Vec<i64>) -> Result<Plan> {
    let level = u32::from(level.get());
    let mut plan = Plan::default();
    // SAFETY: `column` is lent with its length, the struct is as the header says; `append` lends a buffer with its
    // length, and the place of the answer.
    append(scratch, |scratch, places, count| unsafe {
        wb_analyze(column.as_ptr(), column.len(), level, scratch, places, &mut plan, count)
    })?;
    Ok(plan)
}

/// Refusals that no caller of the crate can meet, because the crate lends enough.
#[cfg(test)]
mod tests {
    use super::*;

    fn number_and_offset<T: std::fmt::Debug>(answer: Result<T>) -> (u32, usize) {
        let error = answer.unwrap_err();
        (error.number(), error.offset())
    }

    #[test]
    fn a_short_buffer_is_refused_with_the_length_needed() {
        let mut none = Vec::new();
        assert_eq!(number_and_offset(encode_integers(&[], Encoding::Plain, &mut vec![], &mut none)), (20, 3));
        assert_eq!(number_and_offset(write_uvarint(300, &mut none)), (20, 2));
        assert_eq!(number_and_offset(write_varint(-1, &mut none)), (20, 1));
        assert_eq!(number_and_offset(pack(&[1, 2, 3], 5, &mut none)), (20, 2));
        assert_eq!(number_and_offset(unpack(&[0xFF], 1, 8, &mut vec![])), (20, 8));
        assert_eq!(number_and_offset(decode_integers(&[3, 1, 4, 4, 0xAA, 0xAA], false, &mut vec![])), (20, 4));
        assert!(none.is_empty());
    }

    #[test]
    fn a_short_scratch_is_refused() {
        let mut out = Vec::with_capacity(100);
        assert_eq!(number_and_offset(encode_integers(&[1], Encoding::Dictionary, &mut vec![], &mut out)), (22, 0));
        assert_eq!(number_and_offset(estimate_sizes(&[1], &mut vec![])), (22, 0));
        assert_eq!(number_and_offset(analyze(&[1], CompressionLevel::MAX, &mut vec![])), (22, 0));
        assert!(out.is_empty());
    }

    #[test]
    #[should_panic = "the library answered 27, which is the number of no refusal"]
    fn an_unknown_number_is_not_taken_for_an_answer() {
        let _ = settle(27, 0);
    }

    #[test]
    #[should_panic = "the library stored 9 elements where 8 were lent"]
    fn a_count_above_the_room_is_not_trusted() {
        let mut out: Vec<u8> = Vec::with_capacity(8);
        let _ = append(&mut out, |_, room, count| {
            *count = room + 1;
            0
        });
    }
}
