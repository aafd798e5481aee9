//! Warpboulder: a proved codec for columns of signed 64-bit keys.
//!
//! A column is *planned* (which of seven encodings is the shortest), *packed* as a chunk of bytes, and *read back*. The
//! functions have the names and shapes of the Rust project basalt, whose integer encodings they replace. All the work
//! is done by a library whose answers are proved to be what the format's definitions say, for every column, chunk and
//! level; this crate allocates what the library is lent and gives its answers Rust's types.
//!
//! # Planning, packing, reading back
//!
//! ```
//! use warpboulder::{analyze, decode_integers, encode_integers, CompressionLevel, Encoding};
//!
//! // 10,000 parcels with rising numbers.
//! let parcels: Vec<i64> = (0..10_000).map(|i| 7_000_000_000 + 3 * i).collect();
//!
//! let plan = analyze(&parcels, CompressionLevel::BALANCED);
//! assert_eq!(plan.encoding, Encoding::DeltaBinaryPacked);
//!
//! let mut chunk = Vec::with_capacity(plan.estimated_bytes);
//! encode_integers(&parcels, plan.encoding, &mut chunk)?;
//! assert!(chunk.len() <= plan.estimated_bytes);
//! assert!(chunk.len() < plan.plain_bytes / 100);
//!
//! assert_eq!(decode_integers(&chunk)?, parcels);
//! # Ok::<(), warpboulder::Error>(())
//! ```
//!
//! # A refusal
//!
//! What cannot be served is refused with a [`Refusal`], which has a number, and with an offset. A refusal changes
//! nothing: an output that a call appends to is as it was.
//!
//! ```
//! use warpboulder::{decode_integers, Refusal};
//!
//! // A Varint chunk that claims two keys, and ends within the second.
//! let error = decode_integers(&[0x02, 0x01, 0x02, 0x0A, 0x80]).unwrap_err();
//! assert_eq!(error.refusal(), Refusal::VarintCut);
//! assert_eq!((error.number(), error.offset()), (6, 4));
//! assert_eq!(error.to_string(), "the bytes end in the middle of a varint (refusal 6 at offset 4)");
//! ```
//!
//! # Moving over from basalt
//!
//! Write `warpboulder` for `basalt_encoding` and `basalt_common`:
//!
//! ```
//! // use basalt_common::{CompressionLevel, Result};
//! // use basalt_encoding::{analyze, varint, Codec, Encoding, RunLengthCodec};
//! use warpboulder::{analyze, varint, Codec, CompressionLevel, Encoding, Result, RunLengthCodec};
//! # let chunk: Result<Vec<u8>> = RunLengthCodec.encode_to_vec(&[1]);
//! # assert_eq!(analyze(&[], CompressionLevel::default()).encoding, Encoding::Plain);
//! # assert_eq!(varint::varint_len(chunk?.len() as i64), 1);
//! # Ok::<(), warpboulder::Error>(())
//! ```
//!
//! Chunks, statistics, estimates and plans are the same, bit for bit. What differs:
//!
//! - **Refusals instead of texts.** [`Error`] stands for `BasaltError`, and has a number and an offset in place of an
//!   object, a region and a text. [`Error::new`] stands for `BasaltError`'s constructors, such as `corruption` and
//!   `internal`. `is_corruption` and `corruption_offset` are there as before.
//! - **Limits.** [`encode_integers`] refuses more than 2^24 keys, which basalt writes and cannot read, and a dictionary
//!   of more than 16,384 entries. [`bitpack`] refuses more than 2^24 values, and widths above 64 everywhere.
//! - **Panics, and the `try_` forms.** Where a basalt function returns no `Result`, ours panics above a limit:
//!   [`analyze`], [`analyze_integers`] and [`bitpack::packed_len`]. [`try_analyze`], [`try_analyze_integers`] and
//!   [`bitpack::try_packed_len`] refuse instead.
//! - **Strict reading** is new: [`decode_integers_strict`] and [`decode_named_strict`] also refuse chunks that nobody
//!   writes. So is [`decode_named`], which does what the `decode` of a codec does.
//! - **No `const fn`** for what the library computes: [`varint::zigzag_encode`], [`varint::zigzag_decode`],
//!   [`varint::uvarint_len`], [`varint::varint_len`], [`bitpack::packed_len`] and [`bitpack::required_width`].
//! - **`choose_integer_encoding` is not there**, since estimates and plans are made for a column and never for a record
//!   that a caller has made: call [`analyze`]. [`estimate_sizes`] takes a record, and gives the estimates that were
//!   made with it.
//! - **A refused read leaves its place.** [`varint::read_uvarint`] and [`varint::read_varint`] move `pos` only where
//!   they succeed.
//! - **Integers only.** There are no encodings of bytes (`PlainBytes`, `ByteLz`) and so no `is_integer_encoding`, no
//!   byte columns, no 128-bit varints, and of basalt's `Config` the [`CompressionLevel`] alone.
//!
//! # Building
//!
//! ```toml
//! [dependencies]
//! warpboulder = { path = "../warpboulder/bindings/rust" } # the checkout, seen from this Cargo.toml
//! ```
//!
//! The crate stands in `bindings/rust` of the Warpboulder repository. Building it proves the library first, with the
//! command `rt` of the Rattle kit (x86-64-v2 Linux); that takes some minutes once, and then only where the library's
//! sources change. Where the environment variable `WARPBOULDER_LIBRARY` names a folder that has `libc_api.a`, that one
//! is linked and nothing is proved.

#![warn(missing_docs)]
#![deny(unsafe_code)]

pub mod bitpack;
mod codec;
mod encoding;
mod error;
mod estimates;
#[allow(unsafe_code)]
mod ffi;
mod integer;
mod level;
mod plan;
mod stats;
pub mod varint;

pub use codec::{
    BitPackedCodec, Codec, DeltaBinaryPackedCodec, DictionaryCodec, FrameOfReferenceCodec, PlainCodec, RunLengthCodec,
    VarintCodec,
};
pub use encoding::Encoding;
pub use error::{Error, Refusal, Result};
pub use estimates::{estimate_sizes, SizeEstimates};
pub use integer::{
    decode_integers, decode_integers_strict, decode_named, decode_named_strict, encode_integers, peek_encoding,
    CODEC_VERSION, DELTA_BLOCK_SIZE, MAX_CHUNK_ELEMENTS,
};
pub use level::CompressionLevel;
pub use plan::{analyze, try_analyze, EncodingPlan, PlanReason};
pub use stats::{
    analyze_integers, try_analyze_integers, Cardinality, IntegerStats, Sortedness, MAX_DICTIONARY_CARDINALITY,
};
