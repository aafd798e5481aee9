//! Chunks: columns written in an encoding, and read back.

use crate::encoding::Encoding;
use crate::error::{Error, Refusal, Result};
use crate::stats::new_scratch;
use crate::{ffi, varint};

/// The most keys that a column or a chunk may have: 2^24, which take 128 MiB.
pub const MAX_CHUNK_ELEMENTS: usize = 1 << 24;

/// The version of the layout: the second byte of every chunk.
pub const CODEC_VERSION: u8 = 1;

/// How many differences a written block of [`Encoding::DeltaBinaryPacked`] has; the last one may have fewer.
pub const DELTA_BLOCK_SIZE: usize = 128;

/// How many keys a byte of a chunk may claim, so that room is reserved for them before the chunk is known to be good.
/// More than one key a bit comes from runs and from widths of 0, and such chunks are so short that asking them first
/// costs little.
const LIKELY_KEYS_A_BYTE: usize = 8;

/// Appends `values`, as a chunk in `encoding`, to `out`.
///
/// [`analyze`](crate::analyze) tells which encoding is the shortest, and with its `estimated_bytes` a capacity that is
/// always enough. A vector that has no spare capacity is grown as the chunk needs it.
///
/// # Errors
///
/// [`ColumnAboveLimit`](Refusal::ColumnAboveLimit) for more than [`MAX_CHUNK_ELEMENTS`] values; for
/// [`Encoding::Dictionary`] also [`TooManyDistinct`](Refusal::TooManyDistinct), for more than
/// [`MAX_DICTIONARY_CARDINALITY`](crate::MAX_DICTIONARY_CARDINALITY) distinct ones. Then `out` is as it was.
///
/// ```
/// use warpboulder::{encode_integers, Encoding};
///
/// let mut out = vec![0xFF];
/// encode_integers(&[5, 5, 5, 5], Encoding::RunLength, &mut out)?;
/// assert_eq!(out, [0xFF, 0x05, 0x01, 0x04, 0x01, 0x0A, 0x04]);
/// # Ok::<(), warpboulder::Error>(())
/// ```
pub fn encode_integers(values: &[i64], encoding: Encoding, out: &mut Vec<u8>) -> Result<()> {
    let mut scratch = match encoding {
        Encoding::Dictionary => new_scratch(values.len()),
        _ => Vec::new(),
    };
    let encode = |out: &mut Vec<u8>| ffi::encode_integers(values, encoding, &mut scratch, out);
    if out.len() < out.capacity() {
        // Capacity that the caller has reserved is tried as it is.
        return append_all(out, encode);
    }
    out.reserve(plain_len(values.len()));
    let answer = append_all(out, encode);
    // What the guess has reserved beyond the growth of any vector is given back.
    out.shrink_to(2 * out.len());
    answer
}

/// The length of the Plain chunk, as the first guess of a chunk's length: no chunk in the planned encoding is longer. A
/// column that is refused for its length has no chunk.
fn plain_len(count: usize) -> usize {
    if count > MAX_CHUNK_ELEMENTS {
        return 0;
    }
    2 + varint::uvarint_len(count as u64) + 8 * count
}

/// Has a call append to `out` within its capacity, and where that is too short, again with as much as the call asks
/// for.
fn append_all<T>(out: &mut Vec<T>, mut call: impl FnMut(&mut Vec<T>) -> Result<()>) -> Result<()> {
    match call(out) {
        Err(error) if error.refusal() == Refusal::BufferTooShort => {
            out.reserve(error.offset());
            call(out)
        }
        answer => answer,
    }
}

/// Reads a chunk, in whichever encoding its first byte says. Bytes after its body are ignored.
///
/// # Errors
///
/// The first of the refusals 1 to 19 that applies; [`Refusal`] lists them.
///
/// ```
/// use warpboulder::{decode_integers, Codec, FrameOfReferenceCodec};
///
/// let values = vec![1_000_000i64, 1_000_004, 1_000_002];
/// let buf = FrameOfReferenceCodec.encode_to_vec(&values)?;
/// assert!(buf.len() < values.len() * 8);
/// assert_eq!(decode_integers(&buf)?, values);
/// # Ok::<(), warpboulder::Error>(())
/// ```
pub fn decode_integers(bytes: &[u8]) -> Result<Vec<i64>> {
    decode(bytes, |column| ffi::decode_integers(bytes, false, column))
}

/// Reads a chunk as [`decode_integers`] does, and refuses what [`encode_integers`] never writes: varints that are
/// longer than they need to be, and bytes after the body.
///
/// # Errors
///
/// As [`decode_integers`], then [`VarintPadded`](Refusal::VarintPadded) and
/// [`BytesAfterBody`](Refusal::BytesAfterBody).
///
/// ```
/// use warpboulder::{decode_integers, decode_integers_strict, Refusal};
///
/// // An empty Plain chunk, and one byte more.
/// assert_eq!(decode_integers(&[1, 1, 0, 0]), Ok(vec![]));
/// let error = decode_integers_strict(&[1, 1, 0, 0]).unwrap_err();
/// assert_eq!((error.refusal(), error.offset()), (Refusal::BytesAfterBody, 3));
/// ```
pub fn decode_integers_strict(bytes: &[u8]) -> Result<Vec<i64>> {
    decode(bytes, |column| ffi::decode_integers(bytes, true, column))
}

/// Reads a chunk that must be in `encoding`. Bytes after its body are ignored.
///
/// # Errors
///
/// As [`decode_integers`], and [`OtherEncoding`](Refusal::OtherEncoding) where the chunk is in another one.
///
/// ```
/// use warpboulder::{decode_named, Encoding, Refusal};
///
/// let chunk = [0x05, 0x01, 0x04, 0x01, 0x0A, 0x04];
/// assert_eq!(decode_named(&chunk, Encoding::RunLength), Ok(vec![5, 5, 5, 5]));
/// assert_eq!(decode_named(&chunk, Encoding::Plain).unwrap_err().refusal(), Refusal::OtherEncoding);
/// ```
pub fn decode_named(bytes: &[u8], encoding: Encoding) -> Result<Vec<i64>> {
    decode(bytes, |column| ffi::decode_named(bytes, encoding, false, column))
}

/// Reads a chunk that must be in `encoding`, as strictly as [`decode_integers_strict`].
///
/// # Errors
///
/// As [`decode_named`], then [`VarintPadded`](Refusal::VarintPadded) and [`BytesAfterBody`](Refusal::BytesAfterBody).
///
/// ```
/// use warpboulder::{decode_named_strict, Encoding, Refusal};
///
/// // The count, 0, in two bytes.
/// let error = decode_named_strict(&[1, 1, 0x80, 0x00], Encoding::Plain).unwrap_err();
/// assert_eq!((error.refusal(), error.offset()), (Refusal::VarintPadded, 2));
/// ```
pub fn decode_named_strict(bytes: &[u8], encoding: Encoding) -> Result<Vec<i64>> {
    decode(bytes, |column| ffi::decode_named(bytes, encoding, true, column))
}

fn decode(chunk: &[u8], call: impl FnMut(&mut Vec<i64>) -> Result<()>) -> Result<Vec<i64>> {
    let mut column = Vec::with_capacity(likely_count(chunk));
    append_all(&mut column, call)?;
    Ok(column)
}

/// As many keys as the header claims, or none where the chunk is too short to make that likely: then it is asked
/// without any room first, so that a damaged chunk costs no more memory than 64 times its own length.
fn likely_count(chunk: &[u8]) -> usize {
    let likely = LIKELY_KEYS_A_BYTE.saturating_mul(chunk.len()).min(MAX_CHUNK_ELEMENTS);
    match varint::read_uvarint(chunk, &mut 2) {
        Ok(claimed) if claimed <= likely as u64 => claimed as usize,
        _ => 0,
    }
}

/// The encoding that a chunk says it is in. Only the first byte is looked at.
///
/// # Errors
///
/// [`UnknownId`](Refusal::UnknownId) where there is no byte, or none from 1 to 9;
/// [`NotAnIntegerEncoding`](Refusal::NotAnIntegerEncoding) for 8 and 9, which are basalt's encodings of bytes.
///
/// ```
/// use warpboulder::{peek_encoding, Encoding, Refusal};
///
/// assert_eq!(peek_encoding(&[6, 1, 0]), Ok(Encoding::Dictionary));
/// assert_eq!(peek_encoding(&[]).unwrap_err().refusal(), Refusal::UnknownId);
/// assert_eq!(peek_encoding(&[8]).unwrap_err().refusal(), Refusal::NotAnIntegerEncoding);
/// ```
pub fn peek_encoding(bytes: &[u8]) -> Result<Encoding> {
    let id = bytes.first().copied().unwrap_or(0);
    match (Encoding::from_u8(id), id) {
        (Some(encoding), _) => Ok(encoding),
        (None, 8 | 9) => Err(Error::new(Refusal::NotAnIntegerEncoding, 0)),
        (None, _) => Err(Error::new(Refusal::UnknownId, 0)),
    }
}

#[cfg(test)]
mod tests {
    use super::*;

    #[test]
    fn room_is_reserved_for_what_a_chunk_of_its_length_is_likely_to_hold() {
        // Eight bytes, and so up to 64 keys.
        assert_eq!(likely_count(&[3, 1, 64, 0, 0, 0, 0, 0]), 64);
        assert_eq!(likely_count(&[3, 1, 65, 0, 0, 0, 0, 0]), 0);
        assert_eq!(likely_count(&[3, 1, 0x80, 0x80, 0x80, 0x08, 0, 0]), 0);
        // No count at all, and one above the limit.
        assert_eq!(likely_count(&[]), 0);
        assert_eq!(likely_count(&[3, 1, 0x80]), 0);
        let mut long = vec![0xFF; MAX_CHUNK_ELEMENTS];
        long[2..6].copy_from_slice(&[0x81, 0x80, 0x80, 0x08]);
        assert_eq!(likely_count(&long), 0);
    }
}
