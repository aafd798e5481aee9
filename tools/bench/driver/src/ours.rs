//! Our functions: the C interface (include/warpboulder.h), and the two loops over varints in a row that crates/bench exports. A slice
//! is a pointer and a count of elements. These wrappers are safe: no function has a `requires`, and what the proofs take for granted of
//! a slice holds of a Rust slice.

/// Why a call refused, as document 01 numbers it, and where.
#[derive(Debug, PartialEq)]
pub struct Refusal {
    pub number: u32,
    pub offset: usize,
}

/// The count of values or bytes stored, or the refusal.
pub type Answer = Result<usize, Refusal>;

/// `wb_estimates`.
#[repr(C)]
#[derive(Default)]
pub struct Estimates {
    pub lengths: [u64; 7],
    pub available: [u64; 7],
}

/// `wb_plan`.
#[repr(C)]
#[derive(Default)]
pub struct Plan {
    pub encoding: u64,
    pub estimated_bytes: u64,
    pub plain_bytes: u64,
    pub reason: u64,
    pub run_density: f64,
    pub estimated_ratio: f64,
    pub estimates: Estimates,
}

extern "C" {
    fn wb_pack(
        values: *const u64,
        count: usize,
        width: u32,
        out: *mut u8,
        size: usize,
        count_or_offset: *mut usize,
    ) -> u32;
    fn wb_unpack(
        bytes: *const u8,
        size: usize,
        width: u32,
        count: usize,
        out: *mut u64,
        room: usize,
        count_or_offset: *mut usize,
    ) -> u32;
    fn wb_encode_integers(
        column: *const i64,
        count: usize,
        encoding: u32,
        scratch: *mut i64,
        places: usize,
        out: *mut u8,
        size: usize,
        count_or_offset: *mut usize,
    ) -> u32;
    fn wb_decode_integers(
        chunk: *const u8,
        size: usize,
        strict: bool,
        column: *mut i64,
        room: usize,
        count_or_offset: *mut usize,
    ) -> u32;
    fn wb_analyze(
        column: *const i64,
        count: usize,
        level: u32,
        scratch: *mut i64,
        places: usize,
        plan: *mut Plan,
        count_or_offset: *mut usize,
    ) -> u32;
    fn bench_read_uvarints(bytes: *const u8, size: usize, out: *mut u64, room: usize) -> usize;
    fn bench_write_uvarints(values: *const u64, count: usize, out: *mut u8, size: usize) -> usize;
}

/// Hands the call a place for its count or offset, and makes one answer of both numbers.
fn answer(call: impl FnOnce(*mut usize) -> u32) -> Answer {
    let mut count_or_offset = 0;
    match call(&mut count_or_offset) {
        0 => Ok(count_or_offset),
        number => Err(Refusal { number, offset: count_or_offset }),
    }
}

pub fn pack(values: &[u64], width: u32, out: &mut [u8]) -> Answer {
    answer(|place| unsafe { wb_pack(values.as_ptr(), values.len(), width, out.as_mut_ptr(), out.len(), place) })
}

pub fn unpack(bytes: &[u8], width: u32, count: usize, out: &mut [u64]) -> Answer {
    answer(|place| unsafe { wb_unpack(bytes.as_ptr(), bytes.len(), width, count, out.as_mut_ptr(), out.len(), place) })
}

pub fn encode_integers(column: &[i64], encoding: u32, scratch: &mut [i64], out: &mut [u8]) -> Answer {
    answer(|place| unsafe {
        wb_encode_integers(
            column.as_ptr(),
            column.len(),
            encoding,
            scratch.as_mut_ptr(),
            scratch.len(),
            out.as_mut_ptr(),
            out.len(),
            place,
        )
    })
}

pub fn decode_integers(chunk: &[u8], strict: bool, column: &mut [i64]) -> Answer {
    answer(|place| unsafe {
        wb_decode_integers(chunk.as_ptr(), chunk.len(), strict, column.as_mut_ptr(), column.len(), place)
    })
}

/// The answer's count is that of the distinct values at the front of the scratch.
pub fn analyze(column: &[i64], level: u32, scratch: &mut [i64], plan: &mut Plan) -> Answer {
    answer(|place| unsafe {
        wb_analyze(column.as_ptr(), column.len(), level, scratch.as_mut_ptr(), scratch.len(), plan, place)
    })
}

/// How many are read.
pub fn read_uvarints(bytes: &[u8], out: &mut [u64]) -> usize {
    unsafe { bench_read_uvarints(bytes.as_ptr(), bytes.len(), out.as_mut_ptr(), out.len()) }
}

/// How many bytes are written.
pub fn write_uvarints(values: &[u64], out: &mut [u8]) -> usize {
    unsafe { bench_write_uvarints(values.as_ptr(), values.len(), out.as_mut_ptr(), out.len()) }
}
