//! Numbers packed at a fixed width of 0 to 64 bits.
//!
//! Value `i` has the bits `i * width` and up, the lowest bit of a byte first, and the spare top bits of the last byte
//! are zero. Width 0 packs zeros in no bytes at all.

use crate::error::{Error, Result};
use crate::ffi;

/// How many bytes `count` values of `width` bits are packed in.
///
/// # Panics
///
/// Where [`try_packed_len`] refuses: above 16,777,216 values, and above width 64.
///
/// ```
/// assert_eq!(warpboulder::bitpack::packed_len(10, 3), 4); // 30 bits
/// ```
#[track_caller]
pub fn packed_len(count: usize, width: u32) -> usize {
    // No closure, in which the caller's place would be lost.
    match try_packed_len(count, width) {
        Ok(length) => length,
        Err(error) => panic!("packed_len of {count} values of {width} bits: {error}"),
    }
}

/// How many bytes `count` values of `width` bits are packed in.
///
/// # Errors
///
/// [`ColumnAboveLimit`](crate::Refusal::ColumnAboveLimit), then [`WidthAbove64`](crate::Refusal::WidthAbove64).
///
/// ```
/// use warpboulder::{bitpack::try_packed_len, Refusal};
///
/// assert_eq!(try_packed_len(10, 3), Ok(4));
/// assert_eq!(try_packed_len(10, 65).unwrap_err().refusal(), Refusal::WidthAbove64);
/// ```
pub fn try_packed_len(count: usize, width: u32) -> Result<usize> {
    ffi::packed_len(count, width).map_err(Error::of_argument)
}

/// The least width that holds every number from 0 to `max`: 0 for 0, 64 at most.
///
/// ```
/// use warpboulder::bitpack::required_width;
///
/// assert_eq!([0, 1, 255, 256, u64::MAX].map(required_width), [0, 1, 8, 9, 64]);
/// ```
pub fn required_width(max: u64) -> u32 {
    ffi::required_width(max)
}

/// Appends `values`, packed at `width` bits each. Bits above the width are dropped.
///
/// # Errors
///
/// [`ColumnAboveLimit`](crate::Refusal::ColumnAboveLimit), then [`WidthAbove64`](crate::Refusal::WidthAbove64). Then
/// `out` is as it was.
///
/// ```
/// let mut out = Vec::new();
/// warpboulder::bitpack::pack(&[10, 10, 10, 10], 4, &mut out)?;
/// assert_eq!(out, [0xAA, 0xAA]);
/// # Ok::<(), warpboulder::Error>(())
/// ```
pub fn pack(values: &[u64], width: u32, out: &mut Vec<u8>) -> Result<()> {
    out.reserve(try_packed_len(values.len(), width)?);
    ffi::pack(values, width, out)
}

/// The first `count` values of `width` bits that `bytes` holds.
///
/// # Errors
///
/// [`ColumnAboveLimit`](crate::Refusal::ColumnAboveLimit), [`WidthAbove64`](crate::Refusal::WidthAbove64), then
/// [`PackedCut`](crate::Refusal::PackedCut), whose offset is the number of bytes that there are.
///
/// ```
/// use warpboulder::{bitpack::unpack, Refusal};
///
/// assert_eq!(unpack(&[0xAA, 0xAA], 4, 3), Ok(vec![10, 10, 10]));
///
/// let error = unpack(&[0xAA, 0xAA], 4, 5).unwrap_err();
/// assert_eq!((error.refusal(), error.offset()), (Refusal::PackedCut, 2));
/// ```
pub fn unpack(bytes: &[u8], width: u32, count: usize) -> Result<Vec<u64>> {
    // Asked first, because no count above the limit may be reserved.
    ffi::packed_len(count, width)?;
    let mut values = Vec::with_capacity(count);
    ffi::unpack(bytes, width, count, &mut values)?;
    Ok(values)
}
