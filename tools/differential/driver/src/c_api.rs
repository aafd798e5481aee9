//! include/warpboulder.h, as Rust declares it: the functions in the header's order, and the structs with its fields.

use std::mem::transmute;

#[repr(C)]
pub struct Stats {
    pub count: u64,
    pub first: i64,
    pub min: i64,
    pub max: i64,
    pub run_count: u64,
    pub sortedness: u64,
    pub cardinality: u64,
    pub cardinality_is_exact: u64,
    pub value_span: u64,
    pub max_zigzag: u64,
    pub varint_body_bytes: u64,
    pub run_length_body_bytes: u64,
    pub delta_min: i64,
    pub delta_max: i64,
    pub delta_span: u64,
}

#[repr(C)]
#[derive(Clone, Copy)]
pub struct Estimates {
    pub lengths: [u64; 7],
    pub available: [u64; 7],
}

#[repr(C)]
pub struct Plan {
    pub encoding: u64,
    pub estimated_bytes: u64,
    pub plain_bytes: u64,
    pub reason: u64,
    pub run_density: f64,
    pub estimated_ratio: f64,
    pub estimates: Estimates,
}

pub const STATS_WORDS: usize = 15;
pub const ESTIMATES_WORDS: usize = 14;
pub const PLAN_WORDS: usize = 20;

/// The structs as the words that they are in memory: every field has eight bytes, so none of them is padding.
impl Stats {
    pub fn words(self) -> [u64; STATS_WORDS] {
        unsafe { transmute(self) }
    }
}

impl Estimates {
    pub fn words(self) -> [u64; ESTIMATES_WORDS] {
        unsafe { transmute(self) }
    }
}

impl Plan {
    pub fn words(self) -> [u64; PLAN_WORDS] {
        unsafe { transmute(self) }
    }
}

extern "C" {
    pub fn wb_zigzag_encode(value: i64) -> u64;
    pub fn wb_zigzag_decode(value: u64) -> i64;
    pub fn wb_required_width(max: u64) -> u32;
    pub fn wb_uvarint_len(value: u64) -> usize;
    pub fn wb_varint_len(value: i64) -> usize;

    pub fn wb_read_uvarint(
        bytes: *const u8,
        size: usize,
        at: usize,
        value: *mut u64,
        unpadded: *mut u8,
        next_or_offset: *mut u64,
    ) -> u32;
    pub fn wb_read_varint(
        bytes: *const u8,
        size: usize,
        at: usize,
        value: *mut u64,
        unpadded: *mut u8,
        next_or_offset: *mut u64,
    ) -> u32;
    pub fn wb_write_uvarint(value: u64, out: *mut u8, size: usize, count_or_offset: *mut u64) -> u32;
    pub fn wb_write_varint(value: i64, out: *mut u8, size: usize, count_or_offset: *mut u64) -> u32;

    pub fn wb_packed_len(count: usize, width: u32, count_or_offset: *mut u64) -> u32;
    pub fn wb_pack(
        values: *const u64,
        count: usize,
        width: u32,
        out: *mut u8,
        size: usize,
        count_or_offset: *mut u64,
    ) -> u32;
    pub fn wb_unpack(
        bytes: *const u8,
        size: usize,
        width: u32,
        count: usize,
        out: *mut u64,
        room: usize,
        count_or_offset: *mut u64,
    ) -> u32;

    pub fn wb_encode_integers(
        column: *const i64,
        count: usize,
        encoding: u32,
        scratch: *mut i64,
        places: usize,
        out: *mut u8,
        size: usize,
        count_or_offset: *mut u64,
    ) -> u32;
    pub fn wb_decode_integers(
        chunk: *const u8,
        size: usize,
        strict: bool,
        column: *mut i64,
        room: usize,
        count_or_offset: *mut u64,
    ) -> u32;
    pub fn wb_decode_named(
        chunk: *const u8,
        size: usize,
        encoding: u32,
        strict: bool,
        column: *mut i64,
        room: usize,
        count_or_offset: *mut u64,
    ) -> u32;

    pub fn wb_analyze_integers(
        column: *const i64,
        count: usize,
        scratch: *mut i64,
        places: usize,
        stats: *mut u64,
        count_or_offset: *mut u64,
    ) -> u32;
    pub fn wb_distinct_values(
        column: *const i64,
        count: usize,
        scratch: *mut i64,
        places: usize,
        count_or_offset: *mut u64,
    ) -> u32;
    pub fn wb_estimate_sizes(
        column: *const i64,
        count: usize,
        scratch: *mut i64,
        places: usize,
        stats: *mut u64,
        estimates: *mut u64,
        count_or_offset: *mut u64,
    ) -> u32;
    pub fn wb_analyze(
        column: *const i64,
        count: usize,
        level: u32,
        scratch: *mut i64,
        places: usize,
        plan: *mut u64,
        count_or_offset: *mut u64,
    ) -> u32;
    pub fn wb_minimum_gain(level: u32) -> f64;
}
