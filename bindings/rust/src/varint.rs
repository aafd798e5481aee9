//! Numbers of few bytes: ZigZag and varints of up to 64 bits.
//!
//! A varint has seven bits of its number in each byte, lowest first, and the top bit set on all bytes but the last. A
//! signed number is mapped by ZigZag first, so that small numbers of either sign stay small: 0, -1, 1, -2 become 0, 1,
//! 2, 3.

use crate::error::Result;
use crate::ffi;

/// What the proofs rule out: a varint that does not fit in as many bytes as its length says.
const FITS: &str = "a varint fits in the bytes that its length says";

/// Maps a signed number to an unsigned one so that small numbers of either sign stay small.
///
/// ```
/// use warpboulder::varint::zigzag_encode;
///
/// assert_eq!([0, -1, 1, -2].map(zigzag_encode), [0, 1, 2, 3]);
/// assert_eq!(zigzag_encode(i64::MIN), u64::MAX);
/// ```
pub fn zigzag_encode(value: i64) -> u64 {
    ffi::zigzag_encode(value)
}

/// The inverse of [`zigzag_encode`].
///
/// ```
/// use warpboulder::varint::zigzag_decode;
///
/// assert_eq!([0, 1, 2, 3].map(zigzag_decode), [0, -1, 1, -2]);
/// ```
pub fn zigzag_decode(value: u64) -> i64 {
    ffi::zigzag_decode(value)
}

/// How many bytes [`write_uvarint`] appends for `value`, 1 to 10.
///
/// ```
/// use warpboulder::varint::uvarint_len;
///
/// assert_eq!([0, 127, 128, u64::MAX].map(uvarint_len), [1, 1, 2, 10]);
/// ```
pub fn uvarint_len(value: u64) -> usize {
    ffi::uvarint_len(value)
}

/// How many bytes [`write_varint`] appends for `value`, 1 to 10.
///
/// ```
/// use warpboulder::varint::varint_len;
///
/// assert_eq!([0, -64, 64, i64::MIN].map(varint_len), [1, 1, 2, 10]);
/// ```
pub fn varint_len(value: i64) -> usize {
    ffi::varint_len(value)
}

/// Appends a number as a varint, as short as it can be.
///
/// ```
/// let mut out = Vec::new();
/// warpboulder::varint::write_uvarint(300, &mut out);
/// assert_eq!(out, [0xAC, 0x02]);
/// ```
pub fn write_uvarint(value: u64, out: &mut Vec<u8>) {
    out.reserve(uvarint_len(value));
    ffi::write_uvarint(value, out).expect(FITS);
}

/// Appends the ZigZag of a number as a varint.
///
/// ```
/// let mut out = Vec::new();
/// warpboulder::varint::write_varint(150, &mut out);
/// assert_eq!(out, [0xAC, 0x02]);
/// ```
pub fn write_varint(value: i64, out: &mut Vec<u8>) {
    out.reserve(varint_len(value));
    ffi::write_varint(value, out).expect(FITS);
}

/// Reads the varint at `pos` and moves `pos` behind it. Forms of up to ten bytes are read, also longer ones than
/// [`write_uvarint`] writes.
///
/// # Errors
///
/// [`VarintCut`](crate::Refusal::VarintCut) and [`VarintTooLong`](crate::Refusal::VarintTooLong), at the varint's
/// start. Then `pos` stays where it is.
///
/// ```
/// use warpboulder::varint::read_uvarint;
///
/// let mut pos = 0;
/// assert_eq!(read_uvarint(&[0xAC, 0x02, 0x07], &mut pos), Ok(300));
/// assert_eq!(pos, 2);
///
/// let error = read_uvarint(&[0xAC], &mut 0).unwrap_err();
/// assert_eq!((error.number(), error.offset()), (6, 0));
/// ```
pub fn read_uvarint(bytes: &[u8], pos: &mut usize) -> Result<u64> {
    let (value, next) = ffi::read_uvarint(bytes, *pos)?;
    *pos = next;
    Ok(value)
}

/// Reads the varint at `pos` as the ZigZag of a signed number, and moves `pos` behind it.
///
/// # Errors
///
/// As [`read_uvarint`].
///
/// ```
/// use warpboulder::varint::read_varint;
///
/// let mut pos = 0;
/// assert_eq!(read_varint(&[0xAC, 0x02, 0x07], &mut pos), Ok(150));
/// assert_eq!(read_varint(&[0xAC, 0x02, 0x07], &mut pos), Ok(-4));
/// assert_eq!(pos, 3);
/// ```
pub fn read_varint(bytes: &[u8], pos: &mut usize) -> Result<i64> {
    let (value, next) = ffi::read_varint(bytes, *pos)?;
    *pos = next;
    Ok(value)
}
